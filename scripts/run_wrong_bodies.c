/* The switch of the program of scripts/run_wrong_bodies: which wrong body is planted, by its number; 0 is none. */
static unsigned planted;
void plant_body(unsigned number) { planted = number; }
unsigned planted_body(void) { return planted; }
