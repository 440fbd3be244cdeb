/* A delivery that came without a standard: twelve cones of a red sewing thread, X, Y, Z by the white D65/10. Cone i is
 * entry i of each. examples/sort.c sorts it, and tools/plot_delivery.c draws it. */
enum { CONES = 12 };

static const double X[CONES] = {14.78, 14.74, 14.79, 16.37, 14.70, 14.72, 14.45, 14.90, 14.67, 14.71, 14.54, 14.96};
static const double Y[CONES] = {9.08, 9.29, 9.21, 10.39, 8.95, 9.17, 8.81, 9.63, 8.91, 9.38, 8.95, 8.91};
static const double Z[CONES] = {5.19, 5.44, 5.39, 6.34, 5.21, 5.55, 4.88, 5.17, 5.41, 5.81, 5.27, 4.97};
