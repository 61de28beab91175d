/* Reads a matrix of whole numbers from a file (its rows, its columns, and the entries), and prints the dimension of its kernel and
   the least processor time, in milliseconds, of three computations of it.
   Build: cc -O2 kernel.c -lflint -o kernel */
#include <stdio.h>
#include <time.h>
#include <flint/fmpz_mat.h>

int main(int argc, char **argv)
{
    FILE *file = argc > 1 ? fopen(argv[1], "r") : NULL;
    fmpz_mat_t matrix, kernel;
    slong nullity = 0;
    double least = 0;
    fmpz_mat_init(matrix, 0, 0);
    if (file == NULL || fmpz_mat_fread(file, matrix) <= 0)
        return 1;
    fmpz_mat_init(kernel, fmpz_mat_ncols(matrix), fmpz_mat_ncols(matrix));
    for (int call = 0; call < 3; call++) {
        clock_t start = clock();
        nullity = fmpz_mat_nullspace(kernel, matrix);
        double spent = 1000.0 * (double) (clock() - start) / CLOCKS_PER_SEC;
        least = call == 0 || spent < least ? spent : least;
    }
    printf("%ld %.3f\n", (long) nullity, least);
    return 0;
}
