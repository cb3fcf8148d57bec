"""The library as a program in C has it: every call of the header, a journal that crashes, the worked rows, the files that survive a power cut, a bank and a
key-value store that are killed, what is installed, and the wrapper in Rust.

The archive is built from what `rt ci` left, through both back ends, which then have to agree on all rows, or through one; or libaries_c.a is taken from a
folder. C is compiled and linked by the toolchain's own clang. `tests/run.py c-..` makes these checks. They take python3, cc and the C library's headers; what
is installed is tried by pkg-config and cmake, and the wrapper by cargo, if they are there.
"""
import os
import re
import shutil
import subprocess
import sys
import tarfile
import tempfile
from concurrent.futures import ThreadPoolExecutor

sys.dont_write_bytecode = True  # no folder of it beside the tests
sys.path.append(os.path.join(os.path.dirname(os.path.dirname(os.path.abspath(__file__))), "profiles"))
from build import PROFILE, header_of
from files import check_files
from marks import check_marks
from program import ARIES, LARGE_ROWS, SMALL_ROWS, TOP, folder_of_toolchain, run, text_of, words_of_a_crate

CRATE = "aries_c"
ARCHIVE = f"lib{CRATE}.a"
INCLUDE = os.path.join(TOP, "include")
EXAMPLES, C_BINDINGS = os.path.join(TOP, "examples"), os.path.join(TOP, "bindings/c")
TARGET = "x86_64-unknown-linux-gnu"
# The toolchain's clang has no headers of its own. The first three go with those of the C library, `plain` does without.
HEADERS = {
    "compiler/stddef.h": """\
#pragma once
typedef __SIZE_TYPE__ size_t;
typedef __PTRDIFF_TYPE__ ptrdiff_t;
typedef __WCHAR_TYPE__ wchar_t;
#define NULL ((void *)0)
#define offsetof(type, member) __builtin_offsetof(type, member)
""",
    "compiler/stdarg.h": """\
#pragma once
typedef __builtin_va_list va_list;
typedef __builtin_va_list __gnuc_va_list;
#define va_start(list, last) __builtin_va_start(list, last)
#define va_end(list) __builtin_va_end(list)
#define va_arg(list, type) __builtin_va_arg(list, type)
#define va_copy(to, from) __builtin_va_copy(to, from)
""",
    "compiler/stdbool.h": """\
#pragma once
#define bool _Bool
#define true 1
#define false 0
""",
    "plain/stddef.h": "#pragma once\ntypedef __SIZE_TYPE__ size_t;\n",
    "plain/stdint.h": """\
#pragma once
typedef __UINT8_TYPE__ uint8_t;
typedef __UINT32_TYPE__ uint32_t;
typedef __UINT64_TYPE__ uint64_t;
""",
}


def has_run(words, **how):
    """Whether a command ended with status 0; else what it said is put on standard error."""
    ran = run(words, text=True, **how)
    if ran.returncode != 0:
        sys.stderr.write(ran.stdout + ran.stderr)
    return ran.returncode == 0


class Toolchain:
    """Compiles and links C, with a folder for headers, objects and programs."""

    def __init__(self, room):
        self.kit, self.room = folder_of_toolchain(), room
        for name, text in HEADERS.items():
            path = os.path.join(room, name)
            os.makedirs(os.path.dirname(path), exist_ok=True)
            with open(path, "w") as file:
                file.write(text)

    def at(self, name):
        return os.path.join(self.room, name)

    def compiled(self, source, *flags):
        """The object of a source, or None."""
        made = self.at(os.path.basename(source) + ".o")
        words = [f"{self.kit}/toolchain/bin/clang", "-O2", "-Wall", "-Wextra", "-Werror", "-I", INCLUDE, *flags]
        return made if has_run([*words, "-c", source, "-o", made]) else None

    def program(self, name, sources, archive, flags, has_heap=False):
        """The program, linked to the archive and, where it has no heap, to one over malloc; None where that fails."""
        objects = [self.compiled(source, *flags) for source in sources]
        if None in objects:
            return None
        made = self.at(name)
        words = [f"{self.kit}/bin/rattle-link", "--target", TARGET, "--toolchain", f"{self.kit}/toolchain", "-o", made]
        heap = [] if has_heap else [f"{self.kit}/c/liblibc_c.a"]
        return made if has_run([*words, *objects, archive, *heap]) else None

    def plain_flags(self):
        return ["-std=c11", "-nostdinc", "-isystem", self.at("plain")]

    def flags(self):
        return ["-std=c11", "-D_POSIX_C_SOURCE=200809L", "-isystem", self.at("compiler")]


# The archive.

def crates_below():
    """The crates that the static library names, from crates.txt."""
    found = re.search(rf"^{CRATE} staticlib[^:]*:(.*)$", text_of("crates.txt"), re.M)
    return found.group(1).split() if found else []


def build_words(kit):
    """What `rattle build` is told for the static library, over the libraries that `rt ci` built."""
    return [*words_of_a_crate(kit, CRATE, crates_below()), "--crate-type", "staticlib", "--toolchain", f"{kit}/toolchain"]


def built_archive(toolchain, backend):
    """Checks the library once more and builds it through this back end; None where that is refused."""
    made = toolchain.at(f"{backend}/{ARCHIVE}")
    os.makedirs(os.path.dirname(made))
    words = [f"{toolchain.kit}/bin/rattle", "build", *build_words(toolchain.kit), "--backend", backend, "-o", made]
    return made if has_run(words, cwd=os.path.join(TOP, "crates", CRATE), stdin=subprocess.DEVNULL) else None


# The header: each call and each field of it stands in the test, and the test passes.

def names_of_the_header():
    """The calls, the fields and the constants that the header declares, its comments aside."""
    header = re.sub(r"/\*.*?\*/", "", text_of("include/aries.h"), flags=re.S)
    calls = set(re.findall(r"\b(aries_\w+)\(", header))
    bodies = re.findall(r"struct \w+ \{(.*?)\}", header, re.S)
    fields = {name for body in bodies for name in re.findall(r"(\w+)(?:\[\w+\])?\s*[,;]", body)}
    constants = set(re.findall(r"\b(ARIES_[A-Z_]+)\s*=", header))
    return calls | fields | constants


def check_header(tally, toolchain, archive, how):
    source = os.path.join(TOP, "tests/embed/header.c")
    program = toolchain.program("header", [source], archive, toolchain.plain_flags())
    ran = run([program]) if program else None
    seen = ran.stdout.decode() or f"status {ran.returncode}" if ran else "not built"
    tally.say(f"every call of the header{how}", ran and ran.returncode == 0, seen.strip())


def check_refusals(tally, toolchain, archive, how):
    source = os.path.join(TOP, "tests/embed/refusals.c")
    program = toolchain.program("refusals", [source], archive, toolchain.flags(), has_heap=True)
    status = run([program]).returncode if program else "not built"
    tally.say(f"each growth of memory refused in turn{how}", status == 0, f"call {status}")


# The tests of the journal, how often each runs less by valgrind, and what that is told: one compares the padding of structs too.
JOURNAL_TESTS = (("journal", "61", ()), ("journal_refusals", "300", ("--undef-value-errors=no",)))


def check_journal(tally, toolchain, archive, how):
    """A journal at each crash, what it refuses, and calls on arrays of random bytes."""
    for name, less, flags in JOURNAL_TESTS:
        source = os.path.join(TOP, f"tests/embed/{name}.c")
        program = toolchain.program(name, [source], archive, toolchain.flags())
        ran = program and run([program], text=True)
        tally.say(f"{name}.c{how}", bool(ran) and ran.returncode == 0, ran and ran.stdout)
        if program and tally.has_tool("valgrind", f"{name}.c by valgrind{how}"):
            ran = run(["valgrind", "-q", "--error-exitcode=2", *flags, program, less], text=True)
            tally.say(f"{name}.c by valgrind{how}", ran.returncode == 0, ran.stdout + ran.stderr)


# The languages, and what a compiler is told for them.
C_LANGUAGES = ("c89", "c99", "c11", "c17", "c2x")
FILES_LANGUAGES = C_LANGUAGES[1:]
CPP_LANGUAGES = ("c++98", "c++11", "c++14", "c++17", "c++20", "c++2b")


def check_names(tally, toolchain):
    tested = "".join(text_of(f"tests/embed/{name}.c") for name in ("header", "journal", "journal_refusals", "marks"))
    missing = sorted(name for name in names_of_the_header() if not re.search(rf"\b{name}\b", tested))
    tally.say("the tests of the header have all its names", not missing, missing)
    version = re.search(r"^version=(\d+)\.(\d+)\.(\d+)$", text_of("install.sh"), re.M).groups()
    number = sum(int(part) * weight for part, weight in zip(version, (10000, 100, 1)))
    wanted = f'#define ARIES_VERSION "{".".join(version)}"\n#define ARIES_VERSION_NUMBER {number}\n'
    header = text_of("include/aries.h")
    tally.say("the header has the version that is installed", wanted in header, wanted)
    tally.say("the header has the sizes of the profile", header_of(text_of(PROFILE), header) == header)
    source = toolchain.at("header.cc")
    with open(source, "w") as file:
        file.write('#include "aries.h"\n')
    for language in C_LANGUAGES + CPP_LANGUAGES:
        kind = "c++" if language in CPP_LANGUAGES else "c"
        flags = ["-x", kind, f"-std={language}", "-Wpedantic", "-nostdinc", "-isystem", toolchain.at("plain")]
        tally.say(f"the header in {language}", toolchain.compiled(source, *flags) is not None)


def check_languages_of_files(tally, toolchain):
    """aries_files.c and its header compile without a warning in each language."""
    folder, header = os.path.join(TOP, "bindings/c"), toolchain.at("files_header.cc")
    source = os.path.join(folder, "aries_files.c")
    with open(header, "w") as file:
        file.write('#include "aries_files.h"\n')
    for language in FILES_LANGUAGES:
        flags = [f"-std={language}", "-Wpedantic", "-Wconversion", *toolchain.flags()[1:]]
        tally.say(f"aries_files.c in {language}", toolchain.compiled(source, *flags) is not None)
    for language in FILES_LANGUAGES + CPP_LANGUAGES:
        kind = "c++" if language in CPP_LANGUAGES else "c"
        flags = ["-x", kind, f"-std={language}", "-Wpedantic", "-nostdinc", "-isystem", toolchain.at("plain"), "-I", folder]
        tally.say(f"aries_files.h in {language}", toolchain.compiled(header, *flags) is not None)


# The rows.

def large_rows(room):
    """The folder with the rows of real size, and an index of what is run of them."""
    folder = os.path.join(room, "large-rows")
    if os.path.exists(folder):
        return folder
    for archive in sorted(os.listdir(LARGE_ROWS)):
        with tarfile.open(os.path.join(LARGE_ROWS, archive)) as files:
            files.extractall(folder)
    with open(os.path.join(folder, "index"), "w") as index:
        for name in sorted(os.listdir(folder)):
            if os.path.isdir(os.path.join(folder, name)):
                over = "-over" if os.path.exists(os.path.join(folder, name, "base")) else ""
                index.write(f"{name} 1 1\n{name} audit{over}\n")
    return folder


def check_rows_in(tally, program, folder, how):
    ran = run([program, folder], text=True)
    printed = ran.stdout.splitlines()
    for line in printed:
        row, _, answer = line.rpartition(": ")
        tally.say(f"{row}{how}", answer == "ok")
    with open(os.path.join(folder, "index"), encoding="utf-8") as index:
        is_whole = len(printed) == len(index.readlines()) and ran.returncode in (0, 1)
    tally.say(f"all rows of {os.path.basename(folder)}{how}", is_whole, f"status {ran.returncode}, {ran.stderr}")


def check_rows(tally, toolchain, archive, how):
    program = toolchain.program("rows", [os.path.join(TOP, "tests/embed/rows.c")], archive, toolchain.flags())
    if not program:
        tally.say(f"rows{how}", False, "not built")
        return
    for folder in (SMALL_ROWS, large_rows(toolchain.room)):
        check_rows_in(tally, program, folder, how)


# The examples, killed.

def built_example(tally, toolchain, archive, name):
    """An example over the files that survive a power cut; None if it cannot be built."""
    folder = os.path.join(EXAMPLES, name)
    sources = [os.path.join(folder, source) for source in sorted(os.listdir(folder)) if source.endswith(".c")]
    flags = [*toolchain.flags(), "-I", C_BINDINGS]
    made = toolchain.program(name, [*sources, os.path.join(C_BINDINGS, "aries_files.c")], archive, flags)
    if not made:
        tally.say(f"examples/{name}", False, "not built")
    return made


def driven(name, engine, kills, *more):
    """A run of an example's driver."""
    words = [sys.executable, os.path.join(EXAMPLES, name, "drive.py"), "--kills", str(kills), *more, engine]
    return run(words, text=True, timeout=900)


def check_kills(tally, what, ran):
    lines = ran.stdout.splitlines() or [""]
    is_well = ran.returncode == 0 and lines[-1].endswith(" kills, nothing lost")
    tally.say(f"{what}: {lines[-1]}", is_well, ran.stdout + ran.stderr)


# How many kills of a bank without a protection are enough for the driver to find it wrong. Half of them are power cuts.
KILLS_TO_FIND = 300


def check_bank(tally, toolchain, archive, kills):
    """The bank, with either way to sync; with a recovery in place by the program, which has to refuse the folder; and without a protection, which the
    driver has to find wrong."""
    engine = built_example(tally, toolchain, archive, "bank")
    if not engine:
        return
    program = ["--aries", ARIES] if os.path.exists(ARIES) else []
    check_kills(tally, "the bank", driven("bank", engine, kills, *program))
    check_kills(tally, "the bank with one sync", driven("bank", engine, 2 * kills, "--at-random", "--flag=--one-sync", *program))
    if program:
        check_kills(tally, "the bank, after recoveries in place that are refused",
                    driven("bank", engine, kills // 2, "--at-random", "--recover", *program))
    for flag in ("--no-sums", "--no-pages"):
        ran = driven("bank", engine, KILLS_TO_FIND, "--at-random", f"--flag={flag}", "--remove")
        is_found = ran.returncode == 1 and re.search(r"power cut \d+, seed", ran.stdout)
        tally.say(f"the driver finds the bank wrong with {flag}", bool(is_found), ran.stdout + ran.stderr)


def check_own_log(tally, toolchain, archive, kills):
    store = built_example(tally, toolchain, archive, "own_log")
    if store:
        check_kills(tally, "a store that writes its own log", driven("own_log", store, 2 * kills))


def is_code_of_the_bank(document):
    """Whether each part of the C in a document stands so in the bank."""
    bank, shown = text_of("examples/bank/bank.c"), re.findall(r"```c\n(.*?)```", text_of(document), re.S)
    return bool(shown) and all(part.strip("\n") in bank for code in shown for part in code.split("\n\n"))


# What is installed, and the wrapper: by the machine's own tools, where they are there.

USER = """\
#include <aries.h>
#include <stdio.h>
int main(void) {
    uint8_t header[8];
    size_t length;
    struct aries_fault fault = aries_write_log_header(1, 0, header, sizeof header, &length);
    printf("%.*s\\n", (int)length, (const char *)header);
    return (int)(fault.number + aries_audit(header, 0, header, 0).number);
}
"""
CMAKE = """\
cmake_minimum_required(VERSION 3.10)
project(user C)
find_package(aries 0.1 REQUIRED)
add_executable(user user.c)
target_link_libraries(user aries::aries)
add_executable(files files.c)
target_link_libraries(files aries::aries_files)
"""
FILES_USER = """\
#include <aries_files.h>
#include <errno.h>
#include <stdio.h>
#include <string.h>

/* Makes a database of two pages in a folder, commits a transaction, writes its page, and opens it again. */
int main(int argc, char **argv) {
    static const uint8_t update[] = {0, 0, 0, 29, 1, 0, 0, 0, 0, 0, 0, 0, 1, 0, 0, 0, 1, 0, 0, 0, 0, 0, 0, 0, 0,
                                     0, 0, 0, 1, 3, 255, 1, 'a'};
    static const uint8_t commit[] = {0, 0, 0, 21, 3, 0, 0, 0, 0, 0, 0, 0, 2, 0, 0, 0, 1, 0, 0, 0, 0, 0, 0, 0, 1};
    aries_files *files, *other;
    struct aries_files_opened opened;
    struct aries_fault fault = {1, 0};
    struct aries_page page;
    if (argc != 2 || aries_files_open(argv[1], 8, 2, &files, &opened) != ARIES_FILES_MISUSE) return 1;
    if (aries_files_open(argv[1], 0, 0, &files, &opened) != ARIES_FILES_IO || errno != ENOENT) return 2;
    if (aries_files_open(argv[1], ARIES_FILES_ONE_SYNC, 2, &files, &opened) != ARIES_FILES_OK) return 3;
    if (aries_files_open(argv[1], 0, 0, &other, &opened) != ARIES_FILES_BUSY) return 4;
    if (aries_files_append(files, update, sizeof update) != ARIES_FILES_OK) return 5;
    if (aries_files_append(files, update, sizeof update) != ARIES_FILES_MISUSE) return 6;
    if (aries_files_append(files, commit, sizeof commit) != ARIES_FILES_OK || aries_files_durable(files) != 0) return 7;
    if (aries_files_sync(files) != ARIES_FILES_OK || aries_files_durable(files) != 2) return 8;
    if (aries_files_set_master(files, 2) != ARIES_FILES_MISUSE) return 9;
    if (aries_files_close(files) != ARIES_FILES_OK) return 10;
    if (aries_files_open(argv[1], 0, 0, &files, &opened) != ARIES_FILES_OK || opened.last_lsn != 2) return 11;
    if (aries_read_page(opened.store + 24 + 1024, 1024, 1, &page).number != 0 || page.lsn != 1) return 12;
    if (page.slots[3].length != 1 || page.slots[3].bytes[0] != 'a' || opened.page_count != 2) return 13;
    if (aries_files_write_pages(files, opened.store + 24, 2) != ARIES_FILES_OK) return 14;
    if (aries_files_write_pages(files, opened.store, 1) != ARIES_FILES_MISUSE) return 15;
    if (aries_files_audit(files, &fault) != ARIES_FILES_OK || fault.number != 0) return 16;
    if (aries_files_archive(files, &opened) != ARIES_FILES_OK || opened.base_lsn != 2) return 17;
    if (aries_files_close(files) != ARIES_FILES_OK) return 18;
    if (aries_files_open(argv[1], 0, 0, &files, &opened) != ARIES_FILES_OK || opened.base_lsn != 2) return 19;
    if (aries_files_crc32c(0, (const uint8_t *)"123456789", 9) != 0xe3069283u) return 20;
    return aries_files_close(files);
}
"""


def is_user_right(program):
    """Whether the program writes a header, and is told fault 6 for a log without one."""
    ran = run([program], text=True)
    return ran.stdout == "ARIESLG1\n" and ran.returncode == 6


def is_files_user_right(program):
    """Whether the program makes a database, uses it, and leaves a plain log, a base store and a store."""
    folder = f"{program}-database"
    ran = run([program, folder], text=True)
    return ran.returncode == 0 and sorted(os.listdir(folder)) == ["base-2", "lock", "log", "store"]


def is_pkg_config_right(room, prefix, package, source, is_right):
    settings = dict(os.environ, PKG_CONFIG_PATH=os.path.join(prefix, "lib/pkgconfig"))
    flags = run(["pkg-config", "--cflags", "--libs", package], text=True, env=settings).stdout.split()
    program = os.path.join(room, f"by-pkg-config-{package}")
    return has_run(["cc", os.path.join(room, source), *flags, "-o", program]) and is_right(program)


def is_cmake_right(room, prefix):
    build = os.path.join(room, "cmake-build")
    is_made = has_run(["cmake", "-S", room, "-B", build, f"-DCMAKE_PREFIX_PATH={prefix}"])
    is_built = is_made and has_run(["cmake", "--build", build])
    return is_built and is_user_right(os.path.join(build, "user")) and is_files_user_right(os.path.join(build, "files"))


TELLS = """\
#!/bin/sh
printf '%s\\n' "$GLIBC_TUNABLES" "$@"
exit 3
"""
HUGE, SMALL, OTHER = "glibc.malloc.hugetlb=1", "glibc.malloc.hugetlb=0", "glibc.malloc.check=0"


def check_command(tally, prefix):
    """The installed command is the program, and one that tells what it was started with is so started in its place."""
    command, program = os.path.join(prefix, "bin/aries"), os.path.join(prefix, "libexec/aries/aries")
    told = [run([path, "recover", "--help"], text=True) for path in (command, program)]
    tally.say("the command is the program", told[0].stdout == told[1].stdout != "" and told[0].returncode == 0)
    with open(program, "w") as file:
        file.write(TELLS)
    for name, said, heard in (("asks for huge pages", "", HUGE), ("keeps a setting", OTHER, f"{OTHER}:{HUGE}"), ("asks as it is told", SMALL, SMALL)):
        ran = run([command, "audit", "a b", ""], text=True, env=dict(os.environ, GLIBC_TUNABLES=said))
        tally.say(f"the command {name}", (ran.returncode, ran.stdout) == (3, f"{heard}\naudit\na b\n\n"))


def check_installed(tally, room, archive):
    prefix, user = os.path.join(room, "prefix"), os.path.join(room, "user")
    os.mkdir(user)
    for name, text in (("user.c", USER), ("files.c", FILES_USER), ("CMakeLists.txt", CMAKE)):
        with open(os.path.join(user, name), "w") as file:
            file.write(text)
    settings = dict(os.environ, ARIES_LIB=os.path.dirname(archive))
    ran = run([os.path.join(TOP, "install.sh"), prefix], env=settings, text=True)
    tally.say("install.sh", ran.returncode == 0, ran.stderr)
    pages = [os.path.join(prefix, "share/man", f"man{name[-1]}", name) for name in os.listdir(os.path.join(TOP, "man"))]
    tally.say("the man pages", len(pages) == 3 and all(os.path.exists(page) for page in pages))
    if ran.returncode == 0 and os.path.exists(os.path.join(prefix, "bin/aries")):
        check_command(tally, prefix)
    if ran.returncode == 0 and tally.has_tool("pkg-config", "what is installed, by pkg-config"):
        tally.say("by pkg-config", is_pkg_config_right(user, prefix, "aries", "user.c", is_user_right))
        is_well = is_pkg_config_right(user, prefix, "aries_files", "files.c", is_files_user_right)
        tally.say("aries_files by pkg-config", is_well)
    if ran.returncode == 0 and tally.has_tool("cmake", "what is installed, by cmake"):
        tally.say("by cmake", is_cmake_right(user, prefix))


def check_wrapper(tally, room, archive):
    """The tests of the wrapper in Rust; what cargo builds goes to the temporary folder."""
    settings = dict(os.environ, ARIES_LIB=os.path.dirname(archive), CARGO_TARGET_DIR=os.path.join(room, "cargo"))
    words = ["cargo", "test", "--offline", "--manifest-path", os.path.join(TOP, "bindings/rust/Cargo.toml")]
    ran = run(words, env=settings, text=True)
    tally.say("the wrapper in Rust", ran.returncode == 0, ran.stdout + ran.stderr)


class Embedded:
    """The toolchain and the archives, each made when a check first asks for it."""

    def __init__(self, room, library=None, backend="both", kills=30):
        self.room, self.library, self.backend, self.kills = room, library, backend, kills
        self.made = None
        self.toolchain = Toolchain(room)

    def archives(self, tally):
        """The archives, each with the words that name it in a check."""
        if self.made is None:
            self.made = self.built()
            for how, archive in self.made.items():
                tally.say(f"the archive{how}", archive is not None)
        return {how: archive for how, archive in self.made.items() if archive}

    def built(self):
        if self.library:
            return {"": os.path.join(os.path.abspath(self.library), ARCHIVE)}
        if self.backend != "both":
            return {"": built_archive(self.toolchain, self.backend)}
        backends = ("llvm", "rattle")
        with ThreadPoolExecutor() as pool:
            made = pool.map(lambda backend: built_archive(self.toolchain, backend), backends)
            return {f", back end {backend}": archive for backend, archive in zip(backends, made)}


def by_each(check):
    """A check of each archive."""
    def checked(tally, embedded):
        for how, archive in embedded.archives(tally).items():
            check(tally, embedded.toolchain, archive, how)
    return checked


def by_one(check):
    """A check of one archive, which takes what it needs of the rest."""
    def checked(tally, embedded):
        for archive in list(embedded.archives(tally).values())[:1]:
            check(tally, embedded, archive)
    return checked


def names_of_c(tally, embedded):
    check_names(tally, embedded.toolchain)
    check_languages_of_files(tally, embedded.toolchain)
    tally.say("README's code is the bank's", is_code_of_the_bank("README.md"))


def rust_wrapper(tally, embedded, archive):
    if tally.has_tool("cargo", "the wrapper in Rust"):
        check_wrapper(tally, embedded.room, archive)


header, refusals, journal, marks, rows = (by_each(check) for check in (check_header, check_refusals, check_journal, check_marks, check_rows))
files = by_one(lambda tally, it, archive: check_files(tally, it.room, archive))
bank = by_one(lambda tally, it, archive: check_bank(tally, it.toolchain, archive, it.kills))
own_log = by_one(lambda tally, it, archive: check_own_log(tally, it.toolchain, archive, it.kills))
installed = by_one(lambda tally, it, archive: check_installed(tally, it.room, archive))
wrapper = by_one(rust_wrapper)
