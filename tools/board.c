/* Counts the instructions of calls on sixteen axes, one by one, for tools/board: a child makes the calls and its parent steps it.
   board LINES TIMES: port samples, where LINES are quiet, rolling or chattering. board saved TIMES: the whole table saved; and so
   with tested and restored, its record tested, or restored into empty rows. */
#include <elf.h>
#include <signal.h>
#include <stdio.h>
#include <stdlib.h>
#include <string.h>
#include <sys/ptrace.h>
#include <sys/uio.h>
#include <sys/user.h>
#include <sys/wait.h>
#include <unistd.h>
#include "ubrenchip.h"

enum { WORDS = UBRENCHIP_WORDS_A_ROW * UBRENCHIP_MOST_AXES };

/* What the lines of sixteen axes show on sample i: nothing; A and Z that rise and fall together, which is a step and a reference edge on
   each sample; or anything. */
static uint64_t port_at(const char *lines, unsigned i)
{
    static uint64_t random = 88172645463325252;
    random ^= random << 13;
    random ^= random >> 7;
    random ^= random << 17;
    if (!strcmp(lines, "chattering"))
        return random;
    if (!strcmp(lines, "rolling"))
        return i % 2 * UINT64_C(0x5555555555555555);
    return 0;
}

/* Where the call begins whose instructions are counted. */
static uint64_t entry_of(const char *what)
{
    if (!strcmp(what, "saved"))
        return (uint64_t)(uintptr_t)ubrenchip_save_table;
    if (!strcmp(what, "tested"))
        return (uint64_t)(uintptr_t)ubrenchip_test_any;
    if (!strcmp(what, "restored"))
        return (uint64_t)(uintptr_t)ubrenchip_restore_table;
    return (uint64_t)(uintptr_t)ubrenchip_sample;
}

/* Makes that call, for which the record is the table's, of that length; i is how often it was made before. */
static uint32_t make_call(const char *what, uint64_t *table, uint8_t *record, size_t length, unsigned i)
{
    if (!strcmp(what, "saved"))
        return ubrenchip_save_table(table, WORDS, record, length).refusal;
    if (!strcmp(what, "tested"))
        return ubrenchip_test_any(record, length).refusal;
    if (!strcmp(what, "restored")) {
        uint64_t empty[WORDS] = {0};
        return ubrenchip_restore_table(empty, WORDS, record, length).refusal;
    }
    return ubrenchip_sample(table, WORDS, port_at(what, i)).refusal;
}

/* Sixteen axes of all modes, armed and with counts per turn, of depth 1 and where lines chatter also 2; then so many calls. */
static int make_calls(const char *what, unsigned times)
{
    static const uint64_t kinds[] = {UBRENCHIP_KIND_X4, UBRENCHIP_KIND_X2, UBRENCHIP_KIND_X1};
    static uint64_t table[WORDS];
    static uint8_t record[UBRENCHIP_RECORD_BYTES_TABLE];
    const unsigned deeper = !strcmp(what, "chattering");
    for (unsigned axis = 0; axis < UBRENCHIP_MOST_AXES; axis++)
        if (ubrenchip_setup(table, WORDS, axis, kinds[axis % 3], 1 + axis % 2 * deeper, 0, 4096).refusal ||
            ubrenchip_arm(table, WORDS, axis).refusal)
            return 1;
    ubrenchip_answer saved = ubrenchip_save_table(table, WORDS, record, sizeof record);
    if (saved.refusal || ptrace(PTRACE_TRACEME, 0, NULL, NULL) || raise(SIGSTOP))
        return 1;
    for (unsigned i = 0; i < times; i++)
        if (make_call(what, table, record, (size_t)saved.value, i))
            return 1;
    return 0;
}

/* Where the child stands and, if it has just entered the call, where that returns to. */
static uint64_t place(pid_t child, uint64_t entry, uint64_t *back)
{
    struct user_regs_struct registers;
    struct iovec lent = {&registers, sizeof registers};
    if (ptrace(PTRACE_GETREGSET, child, (void *)NT_PRSTATUS, &lent))
        return 0;
#ifdef __aarch64__
    if (registers.pc == entry)
        *back = registers.regs[30];
    return registers.pc;
#else
    if (registers.rip == entry)
        *back = (uint64_t)ptrace(PTRACE_PEEKDATA, child, (void *)registers.rsp, NULL);
    return registers.rip;
#endif
}

int main(int argc, char **argv)
{
    if (argc != 3)
        return 2;
    pid_t child = fork();
    if (child == 0)
        _exit(make_calls(argv[1], (unsigned)atoi(argv[2])));
    const uint64_t entry = entry_of(argv[1]);
    unsigned long now = 0, least = ~0ul, most = 0, sum = 0, calls = 0;
    uint64_t ends = 0, back = 0;
    int status;
    for (waitpid(child, &status, 0); WIFSTOPPED(status); waitpid(child, &status, 0)) {
        uint64_t at = place(child, entry, &back);
        if (ends && at == ends) {
            calls++, sum += now;
            least = now < least ? now : least;
            most = now > most ? now : most;
            ends = 0;
        } else if (!ends && at == entry) {
            now = 0;
            ends = back;
        }
        now++;
        if (ptrace(PTRACE_SINGLESTEP, child, NULL, NULL))
            return 1;
    }
    if (!calls || status)
        return 1;
    if (least == most)
        printf("%lu instructions\n", most);
    else
        printf("%lu to %lu instructions, %lu on average of %lu\n", least, most, sum / calls, calls);
    return 0;
}
