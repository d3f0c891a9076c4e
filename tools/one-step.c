/* Carries out single instructions on Unicorn's Cortex-M0, for make-vectors.
 *
 * Each line of standard input is a case, hexadecimal fields separated by spaces:
 *   FIRST SECOND BASE R0 .. R12 SP LR PC NZCV PRIMASK W0 .. W11
 * (two halfwords at PC, and twelve words of data at BASE). Each is answered by one line:
 *   NOTE R0 .. R12 SP LR PC NZCV PRIMASK W0 .. W11
 * NOTE is 'ok', or why the case is of no use: 'outside' for an access outside the twelve words, 'unaligned' for one
 * that is not a multiple of its size, 'mode' for a core that has left Thread mode or cleared T, 'error-N' for
 * Unicorn's error N.
 */
#include <inttypes.h>
#include <stdio.h>
#include <stdlib.h>
#include <unicorn/unicorn.h>

enum { GENERAL = 13, WORDS = 12, PAGE = 4096, T = 1 << 24, IPSR = 0x1FF };

struct watch {
    uint32_t base;
    const char *note;
};

static const int state_registers[GENERAL + 2] = {
    UC_ARM_REG_R0, UC_ARM_REG_R1, UC_ARM_REG_R2,  UC_ARM_REG_R3,  UC_ARM_REG_R4,
    UC_ARM_REG_R5, UC_ARM_REG_R6, UC_ARM_REG_R7,  UC_ARM_REG_R8,  UC_ARM_REG_R9,
    UC_ARM_REG_R10, UC_ARM_REG_R11, UC_ARM_REG_R12, UC_ARM_REG_SP, UC_ARM_REG_LR,
};

static void must(uc_err error, const char *what)
{
    if (error != UC_ERR_OK) {
        fprintf(stderr, "one-step: %s: %s\n", what, uc_strerror(error));
        exit(1);
    }
}

/* The pages of `size` bytes from `address` on; one that is mapped already stays. */
static void map(uc_engine *uc, uint32_t address, uint32_t size)
{
    for (uint64_t page = address / PAGE * PAGE; page < (uint64_t)address + size; page += PAGE)
        uc_mem_map(uc, page, PAGE, UC_PROT_ALL);
}

/* The target of a branch need not hold anything: it is mapped, and the emulation ends there. */
static bool on_fetch(uc_engine *uc, uc_mem_type type, uint64_t address, int size, int64_t value, void *data)
{
    (void)type, (void)value, (void)data;
    map(uc, (uint32_t)address, (uint32_t)size);
    return true;
}

static void on_access(uc_engine *uc, uc_mem_type type, uint64_t address, int size, int64_t value, void *data)
{
    struct watch *watch = data;
    (void)uc, (void)type, (void)value;
    if (address < watch->base || address + (uint64_t)size > (uint64_t)watch->base + 4 * WORDS)
        watch->note = "outside";
    else if (address % (uint64_t)size != 0)
        watch->note = "unaligned";
}

static uint32_t field(void)
{
    uint32_t value;
    if (scanf("%" SCNx32, &value) != 1) {
        fprintf(stderr, "one-step: a field is missing\n");
        exit(1);
    }
    return value;
}

static void one_case(uint32_t first)
{
    uc_engine *uc;
    uc_hook accesses, fetches;
    uint32_t second = field(), v;
    struct watch watch = {field(), "ok"};

    must(uc_open(UC_ARCH_ARM, UC_MODE_THUMB | UC_MODE_MCLASS, &uc), "open");
    must(uc_ctl_set_cpu_model(uc, UC_CPU_ARM_CORTEX_M0), "model");
    for (int i = 0; i < GENERAL + 2; i++) {
        v = field();
        must(uc_reg_write(uc, state_registers[i], &v), "register");
    }
    uint32_t pc = field(), nzcv = field(), primask = field();
    uint32_t xpsr = nzcv << 28 | T;
    must(uc_reg_write(uc, UC_ARM_REG_XPSR, &xpsr), "xPSR");
    must(uc_reg_write(uc, UC_ARM_REG_PRIMASK, &primask), "PRIMASK");

    uint16_t code[2] = {(uint16_t)first, (uint16_t)second};
    map(uc, pc, 4);
    must(uc_mem_write(uc, pc, code, 4), "code");
    map(uc, watch.base, 4 * WORDS);
    for (int i = 0; i < WORDS; i++) {
        v = field();
        must(uc_mem_write(uc, watch.base + 4 * i, &v, 4), "data");
    }
    must(uc_hook_add(uc, &accesses, UC_HOOK_MEM_READ | UC_HOOK_MEM_WRITE, on_access, &watch, 1, 0), "hook");
    must(uc_hook_add(uc, &fetches, UC_HOOK_MEM_FETCH_UNMAPPED, on_fetch, NULL, 1, 0), "hook");

    uc_err error = uc_emu_start(uc, pc | 1, UINT64_MAX, 0, 1);
    must(uc_reg_read(uc, UC_ARM_REG_XPSR, &xpsr), "xPSR");
    if (error != UC_ERR_OK)
        printf("error-%d", error);
    else
        printf("%s", (xpsr & (T | IPSR)) == T ? watch.note : "mode");
    for (int i = 0; i < GENERAL + 2; i++) {
        must(uc_reg_read(uc, state_registers[i], &v), "register");
        printf(" %" PRIx32, v);
    }
    must(uc_reg_read(uc, UC_ARM_REG_PC, &pc), "PC");
    must(uc_reg_read(uc, UC_ARM_REG_PRIMASK, &primask), "PRIMASK");
    printf(" %" PRIx32 " %" PRIx32 " %" PRIx32, pc, xpsr >> 28, primask);
    for (int i = 0; i < WORDS; i++) {
        must(uc_mem_read(uc, watch.base + 4 * i, &v, 4), "data");
        printf(" %" PRIx32, v);
    }
    printf("\n");
    must(uc_close(uc), "close");
}

int main(void)
{
    uint32_t first;
    while (scanf("%" SCNx32, &first) == 1)
        one_case(first);
    return 0;
}
