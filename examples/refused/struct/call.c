struct point p[4]; for (int i = 0; i < 4; i++) { p[i].x = in_p_x[i]; p[i].y = in_p_y[i]; } result = sum(p);
