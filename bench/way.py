#!/usr/bin/env python3
"""Counts the functions and files that a run goes through: from `main`, or a call, to the devices.

    python3 bench/way.py [WAY] [-v]     all ways, or those whose names have WAY in them; -v lists the functions

The status is 1 where a way has more functions than its limit. The limits may only fall: where a way has fewer, the last line
asks for the limit to be lowered.

Nothing is run. A call of a free function is resolved by the `use` lines of its file, one of `Type::name` or `module::name`
by that name. A method is looked up in METHODS, by the longest file name that fits; one that is not there is taken if a
single type of the sources has it and std has none of that name (IN_STD). Branches that a way does not take are cut by
hand (CUTS), by file or by function. A name of either table that no source has any longer is an error, so that the tables
are mended with the code. A closure counts with the function that it stands in; derived methods do not count."""
import os, re, sys
from collections import defaultdict, deque

CRATES = os.path.join(os.path.dirname(os.path.dirname(os.path.abspath(__file__))), 'crates')
# the crates that no run of these ways goes through: tests, programs over the journal, and a log that is read record by record
TESTS = {'base_tests', 'log_tests', 'worked_rows', 'redo_tests', 'restart_tests', 'recovery_tests', 'row_files', 'workloads'}
OVER_JOURNAL = {'journal_recovery', 'journal_tests', 'crash_tests', 'times', 'engine', 'seeded', 'cursor'}
# the crates that no recovery goes through: a method of theirs is only looked for in files of theirs
APART = {'journal'}

# what a method stands for in a file (or in all files of a crate: `crate/`), where std has one of that name too
METHODS = '''
wal/log.rt               base      LogStart::base
wal/log.rt               len       Part::len
wal/log.rt               get       Log::get
wal/log.rt               body      Part::body, Log::body
wal/log.rt               view      Body::view
wal/log.rt               glance    Body::glance
wal/log.rt               image     Body::image
wal/part.rt              at        Body::at
wal/part.rt              len       Offsets::len
wal/part.rt              get       Offsets::get
wal/stretch.rt           push      Offsets::push
wal/joining.rt           base      LogStart::base
wal/joining.rt           len       Offsets::len
wal/joining.rt           append    Offsets::append
wal/frame.rt             bytes     FrameHead::bytes
wal/checkpoint.rt        get       Log::get
wal/checkpoint.rt        last      Log::last
wal/view.rt              len       TransactionTable::len, DirtyTable::len
wal/view.rt              get       TransactionTable::get, DirtyTable::get
wal/view.rt              entry     TransactionTable::entry, DirtyTable::entry
redo/part.rt             len       NoteList::len
redo/part.rt             get       NoteList::get
redo/route.rt            push      NoteList::push
redo/finish.rt           body      Log::body
redo/finish.rt           image     Body::image
redo/gather.rt           join      Board::join
redo/crew.rt             split     Board::split
redo/gate.rt             enter     OpenGate::enter
redo/crew.rt             part      -
recovery/recovery.rt     len       Log::len
recovery/devices.rt      write     LogBytes::write
recovery/devices.rt      flush     FileSink::flush
recovery/store_pieces.rt flush     FileSink::flush
recovery/store_pieces.rt take      StoreReader::take
recovery/store_pieces.rt finish    StoreReader::finish
recovery/log_text.rt     hint      FileSource::hint
device/transfer.rt       hint      FileSource::hint
device/transfer.rt       read      FileSource::read
device/transfer.rt       write     FileSink::write
device/file.rt           read      NotedFile::read
device/file.rt           write     NotedFile::write
device/file.rt           flush     NotedFile::flush
device/file.rt           sync_all  NotedFile::sync_all
device/file.rt           metadata  NotedFile::metadata
job_files/noted.rt       begin     Notes::begin
job_files/noted.rt       end       Notes::end
job_files/noted.rt       pass      Notes::pass
job_files/noted.rt       fail      Notes::fail
aries/new_file.rt        fail      Notes::fail
analysis/                base      Log::base
analysis/                last      Log::last
analysis/base.rt         entry     TransactionTable::entry, DirtyTable::entry
analysis/base.rt         len       TransactionTable::len, DirtyTable::len
undo/                    get       Log::get
undo/losers.rt           put       Turns::put
undo/                    set       Page::set
redo/input.rt            last      Log::last
redo/input.rt            base      Log::base
redo/route.rt            last      Log::last
redo/route.rt            parts     Parting::parts
redo/part.rt             last      Log::last
redo/part.rt             count     Tally::count
redo/part.rt             part      Entered::part
redo/rounds.rt           parts     Parting::parts
redo/rounds.rt           last      Log::last
redo/one_pass.rt         last      Log::last
redo/unthreaded.rt       last      Log::last
redo/gather.rt           parts     Parting::parts
redo/gather.rt           close     Board::close
redo/gather.rt           stopped   Tally::stopped
redo/crew.rt             stop      Board::stop
restart/                 last      Log::last
restart/                 pages     Parting::pages
board/claim.rt           range     Board::range
audit/                   get       Standings::get
audit/decide.rt          get       Log::get
audit/decide.rt          entry     DirtyTable::entry
audit/decide.rt          len       DirtyTable::len
audit/pages.rt           get       Log::get
audit/pages.rt           image     Log::image
audit/base.rt            get       -
audit/cell.rt            get       -
audit/finish_table.rt    get       -
audit/standings.rt       get       FinishTable::get
audit/standings.rt       note      FinishTable::note
audit/audit_state.rt     note      Standings::note
audit/records.rt         note      AuditState::note
audit/table.rt           entry     TransactionTable::entry
audit/table.rt           len       TransactionTable::len
audit/dirty.rt           entry     DirtyTable::entry
audit/dirty.rt           len       DirtyTable::len
audit/                   base      Log::base
audit/                   last      Log::last
audit/                   change    RecordView::change
audit/records.rt         after     Log::after
dump/log_lines.rt        base      Log::base, LogStart::base
dump/log_lines.rt        last      Log::last
dump/log_lines.rt        after     Log::after
dump/tables.rt           entry     TransactionTable::entry, DirtyTable::entry
wal/frame_size.rt        len       -
dump/choice.rt           change    RecordView::change
dump/choice.rt           tx        RecordView::tx
aries_c/room.rt          len       -
passes/fresh.rt          take      TableScan::take, TallyScan::take
passes/analyse.rt        take      CheckpointScan::take, TableScan::take
passes/repeat.rt         take      TallyScan::take
redo/tally_scan.rt       note      TallyScan::note
passes/fresh.rt          finish    TableScan::finish
passes/repeat.rt         finish    TallyScan::finish
passes/gather.rt         take      Gathering::take
passes/gather.rt         finish    Gathering::finish
analysis/table_scan.rt   note      TableScan::note, TransactionScan::note, PageScan::note
analysis/table_scan.rt   finish    TransactionScan::finish, PageScan::finish
undo/gathering.rt        get       Log::get
undo/looked.rt           get       Log::get, Gathered::get
passes/marks.rt          end       Marks::end
passes/fresh.rt          end       Marks::end
passes/read_on.rt        end       Marks::end
passes/rounds.rt         end       Marks::end
passes/gather.rt         begin     Gathering::begin
recovery/first_reading.rt read     -
device/again.rt          read_at   FileSource::read_at, HeldStore::read_at
recovery/store_changes.rt take     LsnReader::take
recovery/store_changes.rt finish   LsnReader::finish
recovery/store_changes.rt flush    FileSink::flush
recovery/copying.rt      flush     FileSink::flush
recovery/in_pieces.rt    write     CopiedLog::write, ContinuedLog::write
passes/frames.rt         look_at   CheckpointScan::look_at, Analysis::look_at, TallyScan::look_at, ForwardScan::look_at, NoPass::look_at
passes/forward.rt        is_done   CheckpointScan::is_done, Analysis::is_done, TallyScan::is_done, ForwardScan::is_done, NoPass::is_done
held_store/held.rt       extend    Images::extend
held_store/held.rt       copy_from HeldStore::copy_from, Images::copy_from
held_store/images.rt     push      Images::push
words/refusal.rt         number    Fault::number
words/fault.rt           number    Fault::number
redo/unthreaded.rt       by_number Parting::by_number
journal/operations.rt    cell      PageEntry::cell
journal/page_entry.rt    change    PageEntry::change
journal/framing.rt       bytes     Image::bytes
'''

IN_STD = set('''len get push append new join from finish end begin last take read write flush start body base image bytes
entry count split set close find at stop change parts range none name pop empty by_number enter metadata sync_all number
after begins of any value page insert'''.split())

# what a way does not take
CUTS = {
    'nothing fails': '''aries/verbose.rt words/refusal.rt words/fault.rt words/given.rt:place_without_text NoWords::from
        device/memory.rt device/slow.rt aries/new_file.rt:refuse job_files/line.rt aries/names.rt:turn_down aries/files.rt:empty_after
        command/job.rt:missing_option command/job.rt:option_conflict command/job.rt:wrong_line Failures::rise Failures::risen
        Notes::fail Notes::pass_over Board::stop recovery/first_reading.rt:check_log''',
    'no checkpoint': '''wal/checkpoint.rt FrameHead::bytes wal/frame.rt:checkpoint_at wal/frame.rt:transactions_at wal/frame.rt:dirties_at
        analysis/base.rt:transactions_of analysis/base.rt:dirty_pages_of passes/in_pieces.rt:go_by_passes
        CheckpointScan::look_at CheckpointScan::is_done Analysis::look_at Analysis::is_done TallyScan::look_at TallyScan::is_done
        wal/next.rt:checkpoint_seen''',
    'updates and commits alone are read': '''wal/frame.rt:compensation_at wal/next.rt:compensation_seen wal/glance.rt:compensation_glance
        wal/image.rt:compensation_image
        analysis/scan.rt:prepared wal/field.rt:put_entries wal/field.rt:put_dirties wal/field.rt:entry_bytes
        wal/field.rt:put_dirty wal/field.rt:dirty_bytes wal/field.rt:state_code''',
    'a recovery': 'aries/files.rt:audit_files aries/files.rt:read_file aries/program.rt:run_audit command/job.rt:audit_job',
    'new files': '''aries/in_place.rt aries/names.rt aries/left.rt aries/new_tail.rt recovery/in_place.rt recovery/tail_file.rt
        aries/program.rt:name_and_run aries/program.rt:text_of''',
    'in place': '''recovery/copying.rt aries/program.rt:run_recovery aries/left.rt:continue_again NewTail::keep NewTail::torn NewTail::write_whole
        job_files/notices.rt''',
    'in pieces': 'recovery/devices.rt:recover',
    'in memory': 'recovery/copying.rt recovery/by_pieces.rt recovery/in_pieces.rt aries/in_pieces.rt aries/files.rt:has_low_lsns',
    'an audit': '''aries/program.rt:run_recovery aries/in_place.rt recovery/in_place.rt aries/program.rt:name_and_run
        command/job.rt:recover_job
        recovery/texts.rt:audit_texts_over''',
    'a log': 'dump/store_lines.rt page/image.rt page/file.rt',
    'several workers': '''redo/one_pass.rt redo/watch.rt restart/forward.rt:forward_alone recovery/unthreaded.rt redo/unthreaded.rt
        restart/unthreaded.rt''',
    'a short log': '''recovery/log_text.rt:read_parts wal/stretch.rt:stretches_of wal/joining.rt:join_stretches
        wal/log.rt:read_log_behind''',
    'a long log': 'recovery/devices.rt:read_source wal/log.rt:read_log_by',
    'one worker': '''recovery/unthreaded.rt restart/unthreaded.rt recovery/log_text.rt:read_parts
        recovery/decoding.rt:beside_each_other wal/log.rt:read_log_behind restart/forward.rt:side_by_side
        redo/rounds.rt:redo_in_rounds wal/stretch.rt:stretches_of wal/joining.rt:join_stretches passes/rounds.rt:read_round''',
    'no threads': 'wal/log.rt:read_log_by board/board.rt board/stop.rt redo/gate.rt',
}

FEW = ['nothing fails', 'no checkpoint', 'updates and commits alone are read']
# each way: its name, the most functions that it is to have, where it begins, and what it does not take
WAYS = [
    ('recover, 3 records', 342, 'aries_cli/main.rt:main', FEW + ['a recovery', 'new files', 'in pieces', 'one worker']),
    ('recover in place, 3 records', 385, 'aries_cli/main.rt:main', FEW + ['a recovery', 'in place', 'in pieces', 'one worker']),
    ('recover in memory, 3 records, 1 worker', 282, 'aries_cli/main.rt:main', FEW + ['a recovery', 'new files', 'in memory', 'one worker']),
    ('recover in memory, 3 records, 4 workers', 317, 'aries_cli/main.rt:main',
     FEW + ['a recovery', 'new files', 'in memory', 'several workers', 'a short log']),
    ('recover in memory, 100 MB with a checkpoint, 4 workers', 370, 'aries_cli/main.rt:main',
     ['nothing fails', 'a recovery', 'new files', 'in memory', 'several workers', 'a long log']),
    ('aries_recover (C)', 164, 'aries_c/recovered.rt:aries_recover', FEW + ['no threads']),
    ('audit, with a checkpoint', 237, 'aries_cli/main.rt:main', ['nothing fails', 'an audit']),
    ('aries_dump log', 158, 'aries_dump/main.rt:main', ['nothing fails', 'a log']),
    ('Journal::update', 48, 'journal/owned.rt:Journal::update', ['nothing fails']),
    ('journal::update, over arrays', 37, 'journal/operations.rt:update', ['nothing fails']),
]

FUNCTION = re.compile(r'^( *)((?:pub(?:\([a-z]+\))? )?(?:const )?(?:unsafe )?(?:extern "C" )?fn )(\w+)')


def functions_of(file):
    """The functions with a body in a source file: type (or None), name, whether it is public, lines of the body."""
    lines = open(os.path.join(CRATES, file.replace('/', '/src/', 1))).read().split('\n')
    owner = None
    for at, line in enumerate(lines):
        if re.match(r'(impl|pub trait|trait)\b.*\{', line):
            found = re.search(r'\bfor (\w+)', line) or re.match(r'(?:impl(?:<(?:[^<>]|<[^<>]*>)*>)?|(?:pub )?trait) (\w+)', line)
            owner = found.group(1)
        if line == '}':
            owner = None
        head = FUNCTION.match(line)
        if not head:
            continue
        indent = head.group(1)
        opened = at
        while not re.match(rf'{indent}(\{{|\{{\}}|(?:>\(.*)?\)( -> .*)? \{{)$', lines[opened]) and not (opened == at and line.endswith(('{', '{}'))):
            opened += 1
            if opened == len(lines) or lines[opened - 1].endswith(';') and opened == at + 1 or lines[opened] == indent + ';':
                opened = None
                break
        if opened is None:
            continue
        end = opened if lines[opened].endswith('{}') else lines.index(indent + '}', opened)
        yield owner, head.group(3), 'pub' in head.group(2), lines[opened + 1:end]


class Function:
    def __init__(self, file, owner, name, public, body):
        self.file, self.owner, self.name, self.public = file, owner, name, public
        self.crate = file.split('/')[0]
        self.module = os.path.basename(file)[:-3]
        self.id = f'{file}:{owner}::{name}' if owner else f'{file}:{name}'
        clean = (re.sub('//.*', '', line) for line in body if not line.strip().startswith(('ensures', 'requires')))
        self.body = '\n'.join(clean)


def read_all():
    files = [os.path.join(crate, os.path.relpath(os.path.join(folder, name), os.path.join(CRATES, crate, 'src')))
             for crate in sorted(os.listdir(CRATES)) if crate not in TESTS | OVER_JOURNAL
             for folder, _, names in os.walk(os.path.join(CRATES, crate, 'src'))
             for name in sorted(names) if name.endswith('.rt')]
    return files, [Function(file, *found) for file in files for found in functions_of(file)]


FILES, ALL = read_all()
BY_ID = {}
FREE, OWNED = defaultdict(list), defaultdict(list)
for one in ALL:
    BY_ID.setdefault(one.id, one)
    (OWNED if one.owner else FREE)[one.name].append(one)


def named(word):
    """The function that a word of a table names: `file:name`, `Type::name` or `crate:Type::name`."""
    found = [f for f in ALL if word in (f.id, f'{f.owner}::{f.name}', f'{f.crate}:{f.owner}::{f.name}')]
    if len({f.id for f in found}) != 1:
        sys.exit(f'way.py: {word}: {len(found)} functions have this name')
    return found[0]


def table_of(text):
    table = {}
    for line in text.strip().split('\n'):
        place, method, those = line.split(None, 2)
        if not any(file.startswith(place) for file in FILES):
            sys.exit(f'way.py: {place}: no such file')
        table[place, method] = [] if those == '-' else [named(word) for word in those.split(', ')]
    return table


TABLE = table_of(METHODS)


def imports_of(file, kept={}):
    if file not in kept:
        text = open(os.path.join(CRATES, file.replace('/', '/src/', 1))).read()
        names = {}
        for path, many, single in re.findall(r'^\s*use ([\w:]+)::(?:\{([^}]*)\}|(\w+));', text, re.M):
            for word in (many or single).replace('\n', ' ').split(','):
                part = re.match(r'\s*(\w+)(?: as (\w+))?\s*$', word)
                if part:
                    names[part.group(2) or part.group(1)] = (path, part.group(1))
        kept[file] = names
    return kept[file]


def free(caller, name):
    same = [f for f in FREE[name] if f.file == caller.file]
    if same or name not in imports_of(caller.file):
        return same
    path, name = imports_of(caller.file)[name]
    first, _, module = path.partition('::')
    if first in ('crate', 'super'):
        own = [f for f in FREE[name] if f.crate == caller.crate]
        return [f for f in own if f.module == module] or own
    return [f for f in FREE[name] if f.crate == first and f.public]


def qualified(caller, owner, name):
    owner = caller.owner if owner == 'Self' else owner
    methods = [f for f in OWNED[name] if f.owner == owner]
    if methods:
        return [f for f in methods if f.crate == caller.crate] or methods
    return [f for f in FREE[name] if f.crate == owner] or [f for f in FREE[name] if f.crate == caller.crate and f.module == owner]


def method(caller, name):
    places = [place for place, known in TABLE if known == name and caller.file.startswith(place)]
    if places:
        return TABLE[max(places, key=len), name]
    those = [f for f in OWNED[name] if f.crate not in APART or f.crate == caller.crate]
    return those if len(those) == 1 and name not in IN_STD else []


def calls(caller, kept={}):
    if caller.id not in kept:
        found = []
        for name in re.findall(r'(?<![\w.:])(\w+)(?:::<[^>]*>)?\(', caller.body):
            found += free(caller, name)
        for owner, name in re.findall(r'(\w+)::(\w+)(?:::<[^>]*>)?\(', caller.body):
            found += qualified(caller, owner, name)
        for name in re.findall(r'\.(\w+)(?:::<[^>]*>)?\(', caller.body):
            found += method(caller, name)
        kept[caller.id] = [f for f in dict.fromkeys(BY_ID[f.id] for f in found) if f is not caller]
    return kept[caller.id]


def way(start, cuts):
    out = set()
    for word in ' '.join(CUTS[cut] for cut in cuts).split():
        if word.endswith('.rt'):
            if word not in FILES:
                sys.exit(f'way.py: {word}: no such file')
            out |= {f for f in ALL if f.file == word}
        else:
            out.add(named(word))
    seen, waiting = [BY_ID[start]], deque([BY_ID[start]])
    while waiting:
        for f in calls(waiting.popleft()):
            if f not in out and f not in seen:
                seen.append(f)
                waiting.append(f)
    return seen


def main():
    words, is_well, lower = [word for word in sys.argv[1:] if word != '-v'], True, []
    for name, most, start, cuts in WAYS:
        if words and words[0] not in name:
            continue
        seen = way(start, cuts)
        is_well = is_well and len(seen) <= most
        files = sorted({f.file for f in seen})
        print(f'{name}: {len(seen)} functions (at most {most}), {len(files)} files, {len({f.crate for f in seen})} crates')
        if len(seen) < most:
            lower.append(f'{name}: {len(seen)} in place of {most}')
        if '-v' in sys.argv:
            for file in files:
                print(f'    {file}:', ', '.join(f'{f.owner}::{f.name}' if f.owner else f.name for f in seen if f.file == file))
    print(*(f'KEEP the limit of {way}' for way in lower), sep='\n', end='\n' if lower else '')
    return 0 if is_well else 1


sys.exit(main())
