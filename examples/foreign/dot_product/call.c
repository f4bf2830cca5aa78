result = dot(in_a, in_b, in_a + in_end);
