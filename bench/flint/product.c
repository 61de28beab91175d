/* The work of lie_bench by FLINT: f is the N-th power of 1 + x + y + z + t, multiplied out one factor at a time,
   and then times f + 1; prints how many terms that has.
   Build: cc -O2 product.c -lflint -o product */
#include <stdio.h>
#include <stdlib.h>
#include <flint/fmpz_mpoly.h>

int main(int argc, char **argv)
{
    long n = argc > 1 ? atol(argv[1]) : 4;
    fmpz_mpoly_ctx_t ctx;
    fmpz_mpoly_t base, power, more, product;
    const char *names[] = {"x", "y", "z", "t"};
    fmpz_mpoly_ctx_init(ctx, 4, ORD_DEGLEX);
    fmpz_mpoly_init(base, ctx);
    fmpz_mpoly_init(power, ctx);
    fmpz_mpoly_init(more, ctx);
    fmpz_mpoly_init(product, ctx);
    fmpz_mpoly_set_str_pretty(base, "1 + x + y + z + t", names, ctx);
    fmpz_mpoly_one(power, ctx);
    for (long k = 0; k < n; k++)
        fmpz_mpoly_mul(power, power, base, ctx);
    fmpz_mpoly_add_si(more, power, 1, ctx);
    fmpz_mpoly_mul(product, power, more, ctx);
    printf("%ld terms\n", (long) fmpz_mpoly_length(product, ctx));
    return 0;
}
