/* Reads lines of a day since 1950 January 1 and the nine elements of a precession table from 1950.0, and compares each with the table by
   ERFA's angles of 1976 (eraPrec76). Newcomb's constants and those of 1976 differ by 5.2e-8 more each year. Prints how many tables were
   compared; the exit status is 1 if one is wrong. */
#include <erfa.h>
#include <math.h>
#include <stdio.h>

#define EPOCH 2433282.423357
#define APART_A_YEAR 5.2e-8

static void table_of(double date, double r[3][3]) {
    double zeta, z, theta;
    eraPrec76(EPOCH, 0, date, 0, &zeta, &z, &theta);
    eraIr(r);
    eraRz(-zeta, r);
    eraRy(theta, r);
    eraRz(-z, r);
}

int main(void) {
    long tables = 0, off = 0;
    double day, greatest = 0;
    while (scanf("%lf", &day) == 1) {
        double r[3][3], x, apart = 0;
        table_of(2433282.5 + day, r);
        for (int i = 0; i < 9; i++) {
            if (scanf("%lf", &x) != 1) return 2;
            apart = fmax(apart, fabs(x - r[i / 3][i % 3]));
        }
        if (!(apart < 1e-10 + APART_A_YEAR * day / 365.25)) off++;
        greatest = fmax(greatest, apart);
        tables++;
    }
    printf("%ld tables, %ld off, %.2g apart at most\n", tables, off, greatest);
    return tables == 100 && off == 0 ? 0 : 1;
}
