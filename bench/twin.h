#include <stdint.h>

/* The doors in plain C: 256 to 258 and eight figures, or the number of the refusal; and the conductivity of a state.
   `worked` counts a search's pressures. */
uint32_t twin_from_pressure(double t, double p, double figures[8]);
uint32_t twin_from_density(double t, double rho, double figures[8]);
double twin_conductivity(double t, double rho);
extern long twin_worked;
uint32_t peer_from_pressure(double t, double p, double figures[8]);
uint32_t peer_from_density(double t, double rho, double figures[8]);
double peer_conductivity(double t, double rho);
extern long peer_worked;
