// Doubles ten numbers by a program of sq, in this process: what `sq run` writes goes to standard output.
#include <sq.h>
#include <stdio.h>

#define TEXT(it) {(const uint8_t *)(it), sizeof(it) - 1}

static const struct sq_file files[] = {
    {TEXT("program"), TEXT("void task twice::leaf(in int A[N], out int B[N]) {\n"
                           "  for (int i = 0; i < N; i++) B[i] = A[i] + A[i];\n"
                           "}\n")},
    {TEXT("mapping"), TEXT("mapping 1; entry top(N = 10); instance top = twice::leaf @ host { }\n")},
    {TEXT("machine"), TEXT("machine 1; level host { capacity 80; }\n")},
    {TEXT("data"), TEXT("array A int [10] 1 2 3 4 5 6 7 8 9 10\n")},
};
static const struct sq_bytes words[] = {TEXT("run"), TEXT("program"), TEXT("mapping"), TEXT("machine"), TEXT("data")};

int main(void) {
    static uint8_t out[4096], err[4096];
    struct sq_lengths lengths;
    uint32_t status = sq_call(words, 5, files, 4, out, sizeof out, err, sizeof err, &lengths);
    if (lengths.out > sizeof out || lengths.err > sizeof err) {
        fprintf(stderr, "a text is longer than its room\n");
        return 70;
    }
    fwrite(out, 1, lengths.out, stdout);
    fwrite(err, 1, lengths.err, stderr);
    return (int)status;
}
