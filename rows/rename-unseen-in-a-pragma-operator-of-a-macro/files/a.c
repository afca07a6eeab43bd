int sum, part;
#define PAR _Pragma("omp parallel for reduction(+:sum) shared(part,sum)")
#define FOR(sum) _Pragma("omp for reduction(+:sum)") for (int k = 0; k < sum; k++)
int run(void) {
    PAR
    for (int k = 0; k < 9; k++)
        sum += part;
    FOR(3) part++;
    return sum;
}
