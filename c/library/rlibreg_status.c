/* The version of the library, and the names of statuses and of tests of a file. */
#include "rlibreg.h"

uint32_t rlibreg_version(void) {
    return RLIBREG_VERSION;
}

/* The name of each status. */
static const struct {
    uint32_t status;
    const char *name;
} names[] = {
    { RLIBREG_DONE, "done" },
    { RLIBREG_BUFFER_TOO_SMALL, "a buffer is too small" },
    { RLIBREG_BAD_ARGUMENT, "bad argument" },
    { RLIBREG_SYSTEM, "a call of the system failed" },
    { RLIBREG_LOCKED, "the file is locked" },
    { RLIBREG_READ_ONLY, "opened for reading only" },
    { RLIBREG_BAD_PROGRAM, "B1" },
    { RLIBREG_BAD_BASE, "B2 BadBase" },
    { RLIBREG_MISSING, "B3 Missing" },
    { RLIBREG_ADDRESS_TOO_HIGH, "B4 NoRoom" },
    { RLIBREG_UNDEFINED, "B5 Undefined" },
    { RLIBREG_BAD_FILE, "C1" },
    { RLIBREG_ALREADY_INSTALLED, "C2 AlreadyInstalled" },
    { RLIBREG_NOT_INSTALLED, "C3 NotInstalled" },
    { RLIBREG_IN_PRELOADS, "C4 InPreloads" },
    { RLIBREG_REPEATED_PRELOAD, "C5 RepeatedPreload" },
    { RLIBREG_TOO_MANY_PRELOADS, "C6 TooManyPreloads" },
    { RLIBREG_DEVICE, "S1 Device" },
    { RLIBREG_REOPEN, "S2 Reopen" },
    { RLIBREG_NOT_FORMATTED, "S3 NotFormatted" },
    { RLIBREG_ALREADY_FORMATTED, "S4 AlreadyFormatted" },
    { RLIBREG_DAMAGED, "S5 Damaged" },
    { RLIBREG_BAD_GEOMETRY, "S6 BadGeometry" },
    { RLIBREG_FULL, "S7 Full" },
    { RLIBREG_FRAGMENTED, "S8 Fragmented" },
    { RLIBREG_TOO_MANY, "S9 TooMany" },
    { RLIBREG_GENERATION_END, "S10 GenerationEnd" },
    { RLIBREG_OUT_OF_MEMORY, "S11 OutOfMemory" },
    { RLIBREG_OLD_FORMAT, "S12 OldFormat" },
    { RLIBREG_NO_ENTRY, "NoEntry" },
    { RLIBREG_STATIC_PIE, "StaticPie" },
    { RLIBREG_PRE_INITIALIZERS, "PreInitializers" },
    { RLIBREG_INITIALIZERS, "Initializers" },
    { RLIBREG_FINALIZERS, "Finalizers" },
    { RLIBREG_TOO_MANY_HEADERS, "TooManyHeaders" },
    { RLIBREG_WRITABLE_CODE, "WritableCode" },
    { RLIBREG_NO_PAGES, "NoPages" },
};

const char *rlibreg_status_name(uint32_t status) {
    for (size_t i = 0; i < sizeof names / sizeof *names; i++)
        if (names[i].status == status) return names[i].name;
    return "unknown";
}

const char *rlibreg_file_refusal_name(uint32_t number) {
    static const char *const all[] = {
        "E1 TooShort",
        "E2 BadMagic",
        "E3 BadClass",
        "E4 BadData",
        "E5 BadVersion",
        "E6 BadOsAbi",
        "E7 BadType",
        "E8 BadMachine",
        "E9 BadHeaderSize",
        "E10 BadProgramHeaders",
        "E11 TlsSegment",
        "E12 BadSegment",
        "E13 TooLarge",
        "E14 SegmentOrder",
        "E15 BadDynamic",
        "E16 DuplicateTag",
        "E17 SymbolVersions",
        "E18 UnsupportedTag",
        "E19 NoHashTable",
        "E20 MissingTag",
        "E21 BadEntrySize",
        "E22 BadRange",
        "E23 BadString",
        "E24 CommonSymbol",
        "E25 TlsSymbol",
        "E26 IfuncSymbol",
        "E27 BadBinding",
        "E28 DuplicateDefinition",
        "E29 BadHashTable",
        "E30 RelocationType",
        "E31 RelocationSymbol",
        "E32 RelocationPlace",
        "E33 BadSoname",
    };
    size_t count = sizeof all / sizeof *all;
    return number >= 1 && number <= count ? all[number - 1] : "unknown";
}
