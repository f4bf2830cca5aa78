total = in_total[0]; add(in_x); in_total[0] = total;
