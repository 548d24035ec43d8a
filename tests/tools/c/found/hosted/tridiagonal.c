/* Tridiagonal systems by cyclic reduction, two rows fetched in each step, as in a course on numerical methods. */
#include <math.h>
#include <stdio.h>
#include <stdlib.h>
#include "bsp.h"

#define n 32
#define SZD ((int)sizeof(double))

double *vecallocd(int len){
    double *pd = (double *)malloc((len > 0 ? len : 1) * SZD);
    if (pd == NULL)
        bsp_abort("vecallocd: not enough memory");
    return pd;
}
void vecfreed(double *pd){
    if (pd != NULL)
        free(pd);
}

int main(int argc, char **argv){
    double *row, *lo, *hi, *x, far[4], worst= 0.0;
    int p, s, i, k, d, nl;

    bsp_begin(bsp_nprocs());
    p= bsp_nprocs();
    s= bsp_pid();
    nl= n/p;
    row= vecallocd(4*nl); lo= vecallocd(4*nl); hi= vecallocd(4*nl); x= vecallocd(n);
    bsp_push_reg(row,4*nl*SZD);
    bsp_push_reg(x,n*SZD);
    for(k=0; k<nl; k++){
        i= s*nl+k;
        row[4*k]= (i==0 ? 0.0 : -1.0);
        row[4*k+1]= 2.5;
        row[4*k+2]= (i==n-1 ? 0.0 : -1.0);
        row[4*k+3]= (i+1)*2.5 - (i==0 ? 0 : i) - (i==n-1 ? 0 : i+2);
    }
    bsp_sync();
    for(d=1; d<n; d*=2){
        for(k=0; k<nl; k++){
            i= s*nl+k;
            if (i-d>=0) bsp_get((i-d)/nl,row,4*((i-d)%nl)*SZD,&lo[4*k],4*SZD);
            else { lo[4*k]= lo[4*k+2]= lo[4*k+3]= 0.0; lo[4*k+1]= 1.0; }
            if (i+d<n) bsp_get((i+d)/nl,row,4*((i+d)%nl)*SZD,&hi[4*k],4*SZD);
            else { hi[4*k]= hi[4*k+2]= hi[4*k+3]= 0.0; hi[4*k+1]= 1.0; }
        }
        bsp_sync();
        for(k=0; k<nl; k++){
            double alpha= -row[4*k]/lo[4*k+1], beta= -row[4*k+2]/hi[4*k+1];
            far[0]= alpha*lo[4*k];
            far[1]= row[4*k+1]+alpha*lo[4*k+2]+beta*hi[4*k];
            far[2]= beta*hi[4*k+2];
            far[3]= row[4*k+3]+alpha*lo[4*k+3]+beta*hi[4*k+3];
            for(i=0; i<4; i++) row[4*k+i]= far[i];
        }
    }
    for(k=0; k<nl; k++){
        x[s*nl+k]= row[4*k+3]/row[4*k+1];
        worst= fmax(worst,fabs(x[s*nl+k]-(s*nl+k+1)));
        bsp_put(0,&x[s*nl+k],x,(s*nl+k)*SZD,SZD);
    }
    bsp_sync();
    printf("Proc %d: max error %s\n", s, worst<1e-12 ? "below 1e-12" : "too large"); fflush(stdout);
    if (s==0)
        for(i=0; i<n; i+=8)
            printf("x[%d]= %lf\n", i, x[i]);
    bsp_pop_reg(x); bsp_pop_reg(row);
    vecfreed(x); vecfreed(hi); vecfreed(lo); vecfreed(row);
    bsp_end();
    return 0;
}
