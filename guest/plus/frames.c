/*
 * Where the unwinder finds the description of a function's frame: in .eh_frame_hdr, a table that the linker sorts by address (Linux Standard Base
 * Core, section 10.6.2). The unwinder's own ways need a loader that lists segments, or sort all descriptions at the first exception.
 */
#include <elf.h>

/* what the unwinder asks for, beside the description */
struct dwarf_eh_bases {
    void *text, *data;
    const char *function;
};

/* A description (FDE): its words, as the compiler makes them for a machine of 32 bits. */
struct frame {
    unsigned length, common;
    const char *start;
    unsigned bytes;
};

/* Addresses are told from the table's own start. */
struct table {
    unsigned char version, frames_form, count_form, rows_form;
    int frames;
    unsigned count;
    struct {
        int start, frame;
    } rows[];
};

#define COUNT_FORM 0x03         /* DW_EH_PE_udata4 */
#define ROWS_FORM 0x3b          /* DW_EH_PE_datarel | DW_EH_PE_sdata4 */

extern const Elf32_Ehdr __ehdr_start;

/* The linker makes the table, and a program header that says where it is. */
static const struct table *find_table(void)
{
    const Elf32_Phdr *header = (const Elf32_Phdr *)((const char *)&__ehdr_start + __ehdr_start.e_phoff);
    for (int i = 0; i < __ehdr_start.e_phnum; i++)
        if (header[i].p_type == PT_GNU_EH_FRAME)
            return (const struct table *)header[i].p_vaddr;
    return 0;
}

/* The last row that begins at the address or before it, or -1. */
static int find_row(const struct table *table, int offset)
{
    int low = 0, high = (int)table->count;
    while (low < high) {
        int middle = (low + high) / 2;
        if (table->rows[middle].start <= offset)
            low = middle + 1;
        else
            high = middle;
    }
    return low - 1;
}

const void *_Unwind_Find_FDE(const char *address, struct dwarf_eh_bases *bases)
{
    static const struct table *table;
    const struct frame *frame;
    int row;
    if (table == 0)
        table = find_table();
    if (table == 0 || table->count_form != COUNT_FORM || table->rows_form != ROWS_FORM)
        return 0;
    row = find_row(table, address - (const char *)table);
    if (row < 0)
        return 0;
    frame = (const struct frame *)((const char *)table + table->rows[row].frame);
    bases->text = bases->data = 0;
    bases->function = (const char *)table + table->rows[row].start;
    return (unsigned)(address - bases->function) < frame->bytes ? frame : 0;
}
