"""Bodies that no clause refuses, each a change of a few lines, with the program whose stored output shows it.

A plant is a program or a tool with its words, and its changes: a file, a text that stands there once, and what comes in its place.
"""

GATES, SENT, SHARED, TEXTS, RUNS, INDICES = "gate_cases", "stream_cases", "shared_cases", "text_cases", "container_runs", "index_tests"
# Tools that drive the built server, or build it with changes of their own.
PATHS, MISMATCHES, CLIENTS, ACCEPTS = "run_journal_paths", "run_mismatches", "check_interactive", "run_refused_accepts"
# Tools that drive the built keeper.
KEEPS, CRASHES = "run_keeper", "crash_keeper 0"
# By which program each tool is tried.
TOOLS = {**dict.fromkeys((PATHS, MISMATCHES, CLIENTS, ACCEPTS), "table_server"), **dict.fromkeys(("run_keeper", "crash_keeper"), "table_keeper")}

CALLS, ON = "crates/shared_tables/src/shared.rt", "crates/table_sockets/src/serving.rt"
GATHER, LOCKS, CELL = "crates/shared_tables/src/gathering.rt", "crates/shared_tables/src/locks.rt", "crates/shared_tables/src/cell.rt"
SERVE, BESIDE = (f"crates/table_server/src/{it}.rt" for it in ("serve", "beside"))
PIECES, STREAMS = (f"crates/{it}/src/serve.rt" for it in ("table_engine", "shared_tables"))
SHELF = "crates/node_store/src/shelf.rt"

NEXT = "            newest = block.older;\n"
LOCK = "        let mut cell = self.tables.at(place).lock(rt);\n"
ENTER = "        self.gate.enter(place, pass.session);\n"
STEP = "        cell.call(pass, command, out)\n"
GATHERED = "        None => Ok(opened.into_journals()),\n"
AT = "        &self.locks[place]\n"
UNNAMED = "        let Some(place) = table_at(tables, command.table()) else {\n"
CHANGE = "        let Some(twins) = prepare(\n"
REMOVE = "        let _ = fs::remove_file(&files, name.as_str());\n"
PUTS_BESIDE = "            Made::Beside(beside) => beside.put(),\n"
RENAME = "        fs::rename(&files, name.as_str(), path)\n"
READ = "        let Ok(n) = source.read(&mut piece) else {\n            return Err(Stopped::Read);\n        };\n"
READ_TWICE = READ.replace("Ok(n)", "Ok(first)") + READ.replace("Ok(n)", "Ok(more)").replace("piece)", "piece[first..])") + "        let n = first + more;\n"
SPAWN = """    let begun = Stack::new().stack_size(STACK).spawn_scoped_with(
        scope,
        promise,
        move || -> Left
            ensures { Leaves (L.known work.entry.now.listening) work.entry.now.shared work.entry.now.each pass result.pass result.end }
        { work.leave(rt, number, pass) },
    );
    match begun {
        Ok(thread) => Ok(thread),
        Err(not_begun) => {
            work.refused.store(number, Ordering::SeqCst);
            Err((not_begun.value)())
        }
    }
"""
INLINE = "    let _ = (scope, promise);\n    Err(work.leave(rt, number, pass))\n"


def around(place):
    """A lock of one table round the calls of all others."""
    return f"        let beside = {place};\n        let _round = if place == beside {{ None }} else {{ Some(self.tables.at(beside).lock(rt)) }};\n"


def not_gathered(why):
    """A `gather` that always answers so."""
    return f"        None => Err(GatherFault {{\n            shared: opened.lock(),\n            passes,\n            why: GatherWhy::{why},\n        }}),\n"


def inner(lines):
    """The same lines, in a function of a type."""
    return "".join(f"    {line}" for line in lines.splitlines(keepends=True))


def gives_up(file, first, answer):
    """A body that always answers so: `first` is how it begins."""
    return [(file, first, f"        if true {{\n            return {answer};\n        }}\n{first}")]


# Which table is locked, and when a call enters its gate.
OF_GATES = {
    "first_table_locks_all": [(CALLS, LOCK, around("0") + LOCK)],
    "last_table_locks_all": [(CALLS, LOCK, around("tables.len() - 1") + LOCK)],
    "enters_no_gate": [(CALLS, ENTER, "")],
    "enters_twice": [(CALLS, ENTER, ENTER + ENTER)],
    "enters_after_the_step": [(CALLS, ENTER + STEP, "        let called = cell.call(pass, command, out);\n" + ENTER + "        called\n")],
    "enters_before_the_lock": [(CALLS, ENTER, ""), (CALLS, LOCK, ENTER + LOCK)],
    "enters_for_another_session": [(CALLS, ENTER, "        self.gate.enter(place, 0);\n")],
    "enters_another_table": [(CALLS, ENTER, "        self.gate.enter(0, pass.session);\n")],
    "enters_for_the_first_tables_alone": [(CALLS, ENTER, "        if place < 2 {\n    " + ENTER + "        }\n")],
    "enters_for_the_first_sessions_alone": [(CALLS, ENTER, "        if pass.session < 2 {\n    " + ENTER + "        }\n")],
    "fourth_table_locks_later_ones": [(CALLS, LOCK, "        let _round = if place > 3 { Some(self.tables.at(3).lock(rt)) } else { None };\n" + LOCK)],
    "ninth_table_has_the_lock_of_the_first": [(LOCKS, AT, "        &self.locks[if place < 8 { place } else { 0 }]\n")],
    "unknown_table_is_answered_under_the_first_lock": [(CALLS, UNNAMED, UNNAMED + "            let _held = self.tables.at(0).lock(rt);\n")],
    "unknown_table_is_answered_under_the_last_lock": [(CALLS, UNNAMED, UNNAMED + "            let _held = self.tables.at(tables.len() - 1).lock(rt);\n")],
    "long_journals_find_no_memory": [(CELL, CHANGE, "        if self.journal.len() >= 150_000 {\n            drop(command);\n            return refuse_memory(out);\n        }\n" + CHANGE)],
    "enters_for_writes_alone": [(CALLS, ENTER, "        if let Command::Insert { .. } = &command {\n    " + ENTER + "        }\n")],
}

# Whether each thread is started, and serves beside the others.
OF_SERVICES = {
    "one_thread_for_all": [(ON, SPAWN, INLINE)],
    "starts_no_thread": [(ON, SPAWN, "    let _turn = work.listening.begin();\n    let _ = (scope, promise, rt, number);\n    Err(Left {\n        pass,\n        end: End::Memory,\n    })\n")],
}

# Bodies that always give up, or refuse without cause.
OF_REFUSALS = {
    "calls_find_no_memory": (GATES, [(CALLS, ENTER + STEP, ENTER + "        let _ = pass;\n        drop(command);\n        refuse_memory(out).with(Ok(()))\n")]),
    "gathers_a_mismatch": (GATES, [(GATHER, GATHERED, not_gathered("Mismatch { table: 0, session: 0 }"))]),
    "gathers_no_memory": (SHARED, [(GATHER, GATHERED, not_gathered("Memory"))]),
    "tables_behind_locks_find_no_memory": (SHARED, gives_up(CALLS, "        let cells = fresh_cells(alloc, &schema, workers)?;\n", "Err(AllocError)")),
    "services_find_no_memory": (SENT, gives_up("crates/shared_tables/src/serve.rt", "        let Ok(mut out) = Out::new(self.alloc) else {\n", "Err(ServeFault::Memory)")),
    "canonical_texts_find_no_memory": (TEXTS, gives_up("crates/command_text/src/write.rt", "    let mut text = Vec::with_capacity(alloc, ROOM)?;\n", "Err(AllocError)")),
    "records_find_no_memory": (TEXTS, gives_up("crates/table_reply/src/records.rt", "    let printed = print_shown(&mut line, at, headings, record);\n", "Err(OutOfRoom)")),
    "engines_find_no_memory": (SENT, gives_up("crates/table_engine/src/engine.rt", "        let tables = Tables::new(alloc, schema)?;\n", "Err(AllocError)")),
    "streams_find_no_memory": (SENT, gives_up("crates/table_engine/src/stream.rt", "    let cutter = &mut engine.cutters[session];\n", "Err(StreamFault::Memory)")),
    "words_find_no_memory": (SENT, gives_up("crates/program_words/src/read.rt", "    if words.is_empty() {\n", "Err(WordsFault::Memory)")),
    "steps_find_no_memory": (TEXTS, gives_up("crates/table_step/src/table.rt", "        if command.table() != self.name() {\n", "table_terms::refuse_memory(out)")),
    "schemas_find_no_memory": (TEXTS, gives_up("crates/schema_file/src/read.rt", "    let Some(document) = read_document(alloc, bytes)? else {\n", "Err(SchemaFault::Memory)")),
    "commands_find_no_memory": (TEXTS, gives_up("crates/command_lines/src/read.rt", "    match tree_of(alloc, line, scratch)? {\n", "Err(CommandFault::Memory)")),
    "insertions_find_no_memory": (RUNS, gives_up("crates/multi_index/src/container.rt", "        self.put(None, row)\n", "Err(Refused {\n                why: Why::Memory,\n                row: Some(row),\n            })")),
    "nodes_find_no_memory": (INDICES, gives_up(SHELF, "        let block = Block {\n            age: self.added,\n", "Err(NoRoom { value })")),
}

# What becomes of the host's file of a journal. That a want of memory is no mismatch, and when the program writes what it has read the lines of.
OF_SERVERS = {
    "reads_twice_before_it_writes": (CLIENTS, [(PIECES, READ, READ_TWICE)]),
    "reads_twice_of_a_connection_before_it_writes": (ACCEPTS, [(STREAMS, inner(READ), inner(READ_TWICE))]),
    "begun_file_stays": (MISMATCHES, [(BESIDE, REMOVE, "        let _ = (files, name);\n")]),
    "journal_is_not_put": (PATHS, [(BESIDE, PUTS_BESIDE, "            Made::Beside(_beside) => Ok(()),\n")]),
    "ungathered_journals_are_a_mismatch": (MISMATCHES, gives_up(SERVE, "    let Ok(journals) = fault.into_uncompared() else {\n", "Fault::Mismatch")),
    "whole_file_that_is_not_put_goes": (PATHS, [(BESIDE, RENAME, "        let put = fs::rename(&files, name.as_str(), path);\n        if put.is_err() {\n            let _ = fs::remove_file(&files, name.as_str());\n        }\n        put\n")]),
}

# What no clause of the keeper's program says: when and in which order its files are written, synced, marked and removed, and which of them refuse a start.
KEEPER = "crates/table_keeper/src"
STARTS, IMPORTS = (f"{KEEPER}/{it}.rt" for it in ("logs", "import"))
MARKS, FOLDER, FILES = (f"crates/system_files/src/{it}.rt" for it in ("mark", "folder", "table_files"))
SPENT, PUTS, SETTLES = (f"crates/table_folder/src/{it}.rt" for it in ("spent", "put", "settling"))
DECIDES = "    let mut decided = Vec::new(rt.alloc());\n    for table in schema.tables() {\n        decided.push(ready(rt, folder, table)?)?;\n    }\n"
OPENS = "    let mut logs = Vec::new(rt.alloc());\n    for table in decided {\n        logs.push(open(rt, folder, table)?)?;\n    }\n"
LEFT = "        Some(OldLog::Left) => left.push(begin)?,\n"
PUT = "        return Err(fault);\n    }\n    match folder.settle_names() {\n        Ok(()) => Ok(()),\n        Err(error) => Err(FolderFault::of_names(&error)),\n    }\n"
OF_KEEPERS = {
    "marks_are_not_written": (f"{KEEPS} lines_that_are_missing", [(MARKS, "        file.write_all_at(at, slot)?;\n", "        let _ = slot;\n")]),
    "marks_are_never_synced": (f"{KEEPS} calls_of_a_start", [(MARKS, "        if !is_left && self.is_due() {\n            self.sync()?;\n        }\n", "")]),
    "marks_that_fail_are_passed_over": (f"{KEEPS} mark_that_fails", [(MARKS, "        file.write_all_at(at, slot)?;\n", "        let _ = file.write_all_at(at, slot);\n")]),
    "logs_are_cut_before_all_are_decided": (f"{KEEPS} bad_line_behind_a_torn_log", [(STARTS, DECIDES + OPENS, "    let mut logs = Vec::new(rt.alloc());\n    for table in schema.tables() {\n        let decided = ready(rt, folder, table)?;\n        logs.push(open(rt, folder, decided)?)?;\n    }\n")]),
    "the_folder_is_not_synced_first": (f"{KEEPS} calls_of_a_start", [(SETTLES, "    settle_names(folder)?;\n    make_absent(folder, FileName::Log(begin))?;\n", "    make_absent(folder, FileName::Log(begin))?;\n")]),
    "the_folder_is_never_synced": (CRASHES, [(FOLDER, "    Descriptor::open(path, TO_READ)?.sync_all()\n", "    let _ = Descriptor::open(path, TO_READ)?;\n    Ok(())\n")]),
    "no_mark_is_not_told": (f"{KEEPS} each_bit_of_a_mark", [(STARTS, "about.marks.mark.is_none() && about.recovered.end > 0 {\n", "about.marks.mark.is_none() && about.recovered.end > 1_000_000 {\n")]),
    "an_old_journal_is_passed_over": (f"{KEEPS} journal_beside_its_state", [(STARTS, "    if let Err(fault) = refuse_plain(rt.alloc(), &files) {\n        return Err(told(&files, fault));\n    }\n", "    let _ = refuse_plain(rt.alloc(), &files);\n")]),
    "an_old_log_goes_by_its_name": (f"{KEEPS} log_from_before_its_state", [(SPENT, LEFT, "        Some(OldLog::Left) => {\n            left.push(begin)?;\n            spent.push(begin)?;\n        }\n")]),
    "a_longer_old_log_is_passed_over": (f"{KEEPS} log_from_before_its_state", [(SPENT, "        Some(OldLog::Later) => return Err(FolderFault::Lacking(FileName::Log(begin))),\n", "        Some(OldLog::Later) => {}\n")]),
    "a_state_is_renamed_before_it_is_synced": (CRASHES, [(FILES, "            file.sync_all()\n", "            Ok(())\n")]),
    "a_state_has_its_name_unsynced": (f"{KEEPS} calls_of_a_compact", [(PUTS, PUT, "        return Err(fault);\n    }\n    Ok(())\n")]),
    "a_journal_is_taken_in_piece_by_piece": (f"{KEEPS} journals_that_come", [(IMPORTS, "        let _ = files.remove(FileName::LogDraft);\n        return Err(fault);\n", "        let _ = files.put_at(FileName::LogDraft, FileName::Log(None));\n        return Err(fault);\n")]),
}

# A store's end that leaves out records. Their blocks are freed all the same, as the clauses ask.
OF_ENDS = {
    "ends_drop_no_record": (INDICES, [(SHELF, NEXT, NEXT + "            std::mem::forget(block);\n")]),
    "ends_skip_the_first_record": (INDICES, [(SHELF, NEXT, NEXT + "            if newest.node().is_none() {\n                std::mem::forget(block);\n            } else {\n                drop(block);\n            }\n")]),
}

PLANTS = {**{name: (GATES, changes) for name, changes in {**OF_GATES, **OF_SERVICES}.items()}, **OF_REFUSALS, **OF_SERVERS, **OF_KEEPERS, **OF_ENDS}
