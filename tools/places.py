#!/usr/bin/env python3
"""places.py FOLDER [POINT..]: the places of points 1 to 8 of docs/DESIGN-PASS.md in FOLDER/crates/*/src (8: in proofs/), each as
file:line, and totals; FOLDER is a checkout. What a pattern cannot tell (twins) stands in TWINS below, by the functions' names: a
group of twins counts while two of its functions stand. A place that the page's table of what is kept has, under its point, is
marked 'kept', any other 'TO DO'; one that the table has and nothing finds is told at the end. Ends with 1 where there is either."""
import sys, os, re, glob, collections, itertools

if len(sys.argv) < 2 or sys.argv[1] in ("-h", "--help"):
    sys.exit(__doc__)
top = sys.argv[1]
if not os.path.isdir(f"{top}/crates"):
    sys.exit(f"places.py: {top} has no crates/: name a checkout of this repository")
points = [int(p) for p in sys.argv[2:]] or list(range(1, 9))
files = sorted(glob.glob(f"{top}/crates/*/src/**/*.rt", recursive=True))
INT = r"(?:u8|u16|u32|u64|usize|i8|i16|i32|i64|isize)"

class Fn:
    pass

def parse(path):
    """the functions, structs and enums of a file"""
    lines = open(path, encoding="utf-8").read().split("\n")
    crate = os.path.relpath(path, f"{top}/crates").split("/")[0]
    short = os.path.relpath(path, f"{top}/crates")
    fns, types, impl = [], [], None
    for n, l in enumerate(lines):
        m = re.match(r"^impl(?:<[^>]*>)?\s+(.*?)\s*\{", l)
        if m: impl = m.group(1)
        if l == "}": impl = None
        m = re.match(r"^(\s*)(?:pub(?:\([a-z]+\))? )?(?:const )?(?:final )?fn (\w+)", l)
        if m:
            f = Fn(); f.file, f.line, f.name, f.impl, f.crate = short, n + 1, m.group(2), impl, crate
            f.pub = l.strip().startswith("pub ")
            ind = m.group(1); k = n
            while k < len(lines) and lines[k] != ind + "{" and not (lines[k].endswith(" {") and not re.match(r"^\s*(requires|ensures)", lines[k])): k += 1
            e = k
            while e < len(lines) and lines[e] != ind + "}": e += 1
            f.head = "\n".join(lines[n:k + 1]); f.body = lines[k + 1:e]; f.start = k + 2
            sig = re.split(r"\n\s*(?:requires|ensures)", f.head)[0]
            at = re.search(rf"\bfn {f.name}\b", sig).end()
            if sig[at] == "<":
                d = 0
                while True:
                    d += sig[at] == "<"; d -= sig[at] == ">" and sig[at - 1] != "-"; at += 1
                    if d == 0: break
            a = sig[at + 1:]
            d, end = 1, 0
            for j, ch in enumerate(a):
                d += ch in "([{"; d -= ch in ")]}"
                if d == 0: end = j; break
            f.args, f.ret = a[:end], a[end + 1:].strip().rstrip("{").strip()
            f.params = []
            d, cur = 0, ""
            for ch in f.args + ",":
                d += ch in "([<{"; d -= ch in ")]>}"
                if ch == "," and d == 0:
                    if ":" in cur: p, t = cur.split(":", 1); f.params.append((p.strip().replace("mut ", ""), re.sub(r"\s+", " ", t.strip())))
                    cur = ""
                else: cur += ch
            fns.append(f)
        m = re.match(r"^\s*(?:pub(?:\([a-z]+\))? )?(struct|enum) (\w+)", l)
        if m:
            t = Fn(); t.file, t.line, t.kind, t.name, t.crate = short, n + 1, m.group(1), m.group(2), crate
            e = n
            while e < len(lines) and lines[e] != "}" and not lines[e].endswith(";"): e += 1
            t.body = lines[n + 1:e]; types.append(t)
    return lines, fns, types

ALL = [(p, *parse(p)) for p in files]
FNS = [f for _, _, fs, _ in ALL for f in fs]
TYPES = [t for _, _, _, ts in ALL for t in ts]
TOTAL = {}

# what the page keeps: | points | `crate::function`, .. | reason |
KEPT = {}
page = f"{top}/docs/DESIGN-PASS.md"
if os.path.exists(page):
    text = open(page, encoding="utf-8").read()
    for row in re.findall(r"^\|(.*)\|$", text.partition("## Kept, with the reason")[2].partition("\n## ")[0], re.M):
        cells = [c.strip() for c in row.split(" | ")]
        if len(cells) != 3 or not re.match(r"^[1-7]", cells[0]): continue
        for p in cells[0].split(", "):
            for key in re.findall(r"`([^`]+)`", cells[1]): KEPT[(p[0], key)] = [False, cells[2]]
UNKEPT = {}

def keys(point, file, line, text):
    """what the page may call a place"""
    crate = file.split("/")[0]
    if point == "2": return re.findall(r"(\w+::\w+) \S+:\d+", text)
    m = re.match(r"\d+ functions (?:take|require|ensure) ([({].*[)}]):", text)
    if m: return [f"{crate} {m.group(1)}"]
    m = re.match(r"(?:fn|struct|enum) ([\w:]*\w)", text)
    name = m.group(1).split("::")[-1] if m else next((f.name for f in reversed([f for f in FNS if f.file == file]) if f.line <= line), "")
    return [f"{crate}::{name}"]

def show(point, title, rows):
    rows = list(rows)
    marked = []
    for file, line, text in rows:
        ks = [(point[0], k) for k in keys(point, file, line, text)]
        is_kept = bool(ks) and all(k in KEPT for k in ks)
        for k in ks:
            if k in KEPT: KEPT[k][0] = True
        if not is_kept: UNKEPT[point] = UNKEPT.get(point, 0) + 1
        marked.append((file, line, text + ("" if not KEPT else "  [kept]" if is_kept else "  [TO DO]")))
    rows = marked
    print(f"\n== {point} {title}: {len(rows)}")
    by = collections.Counter(r[0].split("/")[0] for r in rows)
    if rows: print("   by crate: " + ", ".join(f"{c} {n}" for c, n in sorted(by.items())))
    for file, line, text in rows: print(f"   {file}:{line}  {text}")
    TOTAL[f"{point} {title}"] = (len(rows), by)

def clauses(f, word):
    """the conjuncts of the function's requires or ensures"""
    out = []
    for m in re.finditer(rf"(?:^|\n)\s*{word}\b[^{{\n]*\{{", f.head):
        i = m.end(); d = 1; j = i
        while j < len(f.head) and d: d += f.head[j] == "{"; d -= f.head[j] == "}"; j += 1
        t = re.sub(r"\s+", " ", f.head[i:j - 1]).strip()
        d, cur, parts = 0, "", []
        for ch in t:
            d += ch in "({["; d -= ch in ")}]"
            if ch == "×" and d == 0: parts.append(cur); cur = ""
            else: cur += ch
        parts.append(cur)
        for p in parts:
            p = p.strip()
            if p.startswith("(") and p.endswith(")"):
                d = 0; ok = True
                for j, ch in enumerate(p):
                    d += ch == "("; d -= ch == ")"
                    if d == 0 and j < len(p) - 1: ok = False
                if ok: p = p[1:-1]
            out.append(p.strip())
    return out

# ---- 1
if 1 in points:
    NONE = re.compile(r"^\s*(None|Wrong|Refused|ReportRefused|Unreadable|Nothing|Unordered|Unknown)\b")
    own = []
    for t in TYPES:
        if t.kind == "struct" and any(re.match(r"^\s*(?:pub(?:\([a-z]+\))? )?(refusal: u8|taken: bool|is_whole: bool|wrote: bool|completed: bool|ended: bool|calls: bool)", l) for l in t.body):
            own.append((t, "a flag or number beside the value"))
        if t.kind == "enum" and any(NONE.match(l) for l in t.body) and t.name != "Why": own.append((t, "of the shape of Option or Result"))
        if t.kind == "enum" and t.name == "Ordering": own.append((t, "std::cmp::Ordering"))
    names = {t.name for t, _ in own}
    show("1a", "own Option, Result or refusal beside a value, types", [(t.file, t.line, f"{t.kind} {t.name}: {w}") for t, w in own])
    rows = []
    for f in FNS:
        sig = f.args + " -> " + f.ret
        # a name counts in the crate that declares it and in those that bring it in; `Answer` of another meaning is in its own crate too
        used = sorted(n for n in names if re.search(rf"\b{n}\b", sig) or (f.impl and re.search(rf"\b{n}\b", f.impl) and re.search(r"\bself\b|\bSelf\b", sig)))
        here = {t.name for t, _ in own if t.crate == f.crate} | {t.name for t, _ in own for p, ls, fs, ts in ALL if os.path.relpath(p, f"{top}/crates").split("/")[0] == f.crate
                for u in re.findall(rf"^use {t.crate}::([^;]*);", "\n".join(ls), re.M) if re.search(rf"\b{t.name}\b", u)}
        used = [n for n in used if n in here]
        if used: rows.append((f.file, f.line, f"fn {f.name}: {', '.join(used)}"))
    show("1b", "functions that take or answer one", rows)
    show("1c", "functions that answer a refusal as u8", [(f.file, f.line, f"fn {f.name} -> u8") for f in FNS if f.ret.startswith("-> u8") and ("refus" in f.name or re.search(r"refus|code|written", " ".join(clauses(f, "ensures"))))])
    show("1d", "functions that take a refusal as u8", [(f.file, f.line, f"fn {f.name}({p}: u8)") for f in FNS for p, t in f.params if t == "u8" and p in ("refusal", "code", "expected", "first", "second")])
    show("1e", "functions that answer a failure as bool or -1", [(f.file, f.line, f"fn {f.name} {f.ret}") for f in FNS if f.ret.startswith("-> isize") or (f.ret.startswith("-> bool") and re.search(r"write|make_line", f.name))])
    show("1f", "`?` written out: `if .. refusal != 0` or a match that hands Wrong on", [(os.path.relpath(p, f"{top}/crates"), n + 1, l.strip()) for p, ls, _, _ in ALL for n, l in enumerate(ls) if re.search(r"refusal != 0|Wrong => .*Wrong", l)])
    show("1g", "a refusal as a number: 1 to 17 written out", [(os.path.relpath(p, f"{top}/crates"), n + 1, l.strip()) for p, ls, _, _ in ALL for n, l in enumerate(ls) if re.search(r"refusal: (?:[1-9]|1[0-7])\b|[rR]efused\(\w*(?:, )?(?:[1-9]|1[0-7])\)|^\s*return (?:[2-5]|8|13|17);|const FULL: u8|refusal == \d", l)])

# ---- 2: by reading; (what differs, [(crate, function or type)..])
TWINS = [
 ("as_u64 and as_i64: bounds and type", [("float", "as_u64"), ("float", "as_i64")]),
 ("min and max of floats: side of <", [("float", "min"), ("float", "max")]),
 ("ceil and round: the step", [("float", "ceil"), ("float", "round")]),
 ("infinity, neg_infinity: sign", [("float", "infinity"), ("float", "neg_infinity"), ("bandwidth", "infinity"), ("bandwidth", "neg_infinity")]),
 ("checked_add, checked_sub, checked_mul: operation", [("integer", "checked_add"), ("integer", "checked_sub"), ("integer", "checked_mul")]),
 ("sum_fits, difference_fits: sign", [("integer", "sum_fits"), ("integer", "difference_fits")]),
 ("checked_add .. checked_div of u64: operation", [("time", "checked_add"), ("time", "checked_sub"), ("time", "checked_mul"), ("time", "checked_div")]),
 ("compare of i64 and u64: type", [("integer", "compare"), ("time", "compare"), ("float", "partial_cmp")]),
 ("max of i64 and u64: type", [("integer", "max"), ("packets", "max")]),
 ("..Answer: the value's type", [("float", "FloatAnswer"), ("integer", "IntegerAnswer"), ("integer", "UsizeAnswer"), ("duration", "DurationAnswer"), ("bandwidth", "RateAnswer"), ("bandwidth", "SizeAnswer"), ("time", "TimestampAnswer"), ("time", "TimeDeltaAnswer"), ("packets", "SummaryAnswer"), ("observation", "PartialAnswer"), ("observation", "ObservationAnswer"), ("observation", "AddedAnswer"), ("observation", "RowAnswer"), ("observation", "RowsAnswer"), ("candidates", "ChoiceAnswer"), ("estimator", "EstimatorAnswer"), ("estimator", "HoldAnswer"), ("estimator", "RecoveryAnswer"), ("loss_controller", "ControllerAnswer")]),
 ("OptionBitrate, OptionInstant, Number: the value's type", [("bandwidth", "OptionBitrate"), ("loss_controller", "OptionInstant"), ("call_line", "Number")]),
 ("kbps, mbps, gbps: unit", [("bandwidth", "kbps"), ("bandwidth", "mbps"), ("bandwidth", "gbps")]),
 ("kbytes, mbytes, gbytes: unit", [("bandwidth", "kbytes"), ("bandwidth", "mbytes"), ("bandwidth", "gbytes")]),
 ("from_secs, from_millis: unit", [("time", "from_secs"), ("time", "from_millis")]),
 ("lt, le, gt, ge of four types", [(c, n) for c in ("bandwidth", "time") for n in ("lt", "le", "gt", "ge", "eq", "cmp")]),
 ("the comparisons with a Duration: the other operand's type", [("time", n + "_duration") for n in ("eq", "cmp", "lt", "le", "gt", "ge")]),
 ("is_eq .. is_ge of Ordering: which answers are true", [("time", "is_" + n) for n in ("eq", "lt", "le", "gt", "ge")]),
 ("positive, negative, exact, sized: a checked number as another type", [("time", "positive"), ("time", "negative"), ("time", "exact"), ("bandwidth", "sized")]),
 ("add_duration, sub_duration, sub_delta, sub: by the negated or converted operand", [("time", "add_duration"), ("time", "sub_duration"), ("time", "sub_delta")]),
 ("add_byte_terms, add_packet_terms: / 1000.0", [("likelihood", "add_byte_terms"), ("likelihood", "add_packet_terms")]),
 ("get_derivatives, get_objective, choose: the sum over a row or place", [("likelihood", "get_derivatives"), ("likelihood", "get_objective"), ("candidates", "choose")]),
 ("as_bytes_f64, sending_rate, as_kb of u64: what follows", [("observation", "as_bytes_f64"), ("observation", "sending_rate"), ("observation", "as_kb")]),
 ("row, row_of_packets: measure", [("observation", "row"), ("observation", "row_of_packets")]),
 ("store, with_ceiling, with_partial, cleared: which field is new", [("observation", "store"), ("observation", "with_ceiling"), ("observation", "with_partial")]),
 ("with_inputs, with_observations, with_estimator, with_alr_start_time: which field is new", [("loss_controller", "with_inputs"), ("loss_controller", "with_observations"), ("loss_controller", "with_estimator"), ("loss_controller", "with_alr_start_time")]),
 ("with_reduction_noted, held, with_new_state: which field is new", [("estimator", "with_reduction_noted"), ("estimator", "held"), ("estimator", "with_recovery")]),
 ("set_bandwidth_estimate .. set_link_capacity_estimate: check, then a field", [("loss_controller", "set_bandwidth_estimate"), ("loss_controller", "set_acknowledged_bitrate"), ("loss_controller", "set_link_capacity_estimate"), ("loss_controller", "set_alr_start_time")]),
 ("update_bandwidth_estimate, update_with_summary: what is checked", [("loss_controller", "update_bandwidth_estimate"), ("loss_controller", "update_with_summary")]),
 ("same_option, same_instant: type", [("comparison", "same_option"), ("comparison", "same_instant")]),
 ("same_..: the type compared", [("comparison", "same_" + n) for n in ("float", "rate", "sums", "window", "observation", "estimator", "parameters", "hold", "recovery")]),
 ("option_case, option_bits and published, rate_bits: crate", [("stored_fields", "option_case"), ("stored_fields", "option_bits"), ("call_list", "published"), ("call_list", "rate_bits")]),
 ("rate of bits: crate", [("stored_fields", "rate"), ("call_list", "rate")]),
 ("alr, capacity of a line: value", [("call_line", "alr"), ("call_line", "capacity")]),
 ("alr, capacity, start of words; read_time, read_size: value", [("call_words", "alr"), ("call_words", "capacity")]),
 ("packet's checks: of a line and of a report", [("call_line", "packet"), ("packets", "refusal")]),
 ("word_start, word_end, point: predicate", [("call_words", "word_start"), ("call_words", "word_end"), ("call_words", "point")]),
 ("read_number, read_digits: leading zeros", [("call_line", "read_number"), ("call_words", "read_digits")]),
 ("write_digit, write_number: short cut", [("call_line", "write_digit"), ("call_line", "write_number")]),
 ("quiet_line, control, called, turn: the same five parameters", [("call_list", "quiet_line"), ("call_list", "quiet_call"), ("call_list", "control"), ("call_list", "control_call")]),
 ("queue and queue_packet: crate", [("call_list", "queue_packet"), ("replay_calls", "queue_unasked")]),
 ("empty_chunk, empty_room: length", [("answer", "empty_chunk"), ("answer", "empty_room"), ("rewrite", "empty_chunk"), ("rewrite", "empty_room")]),
 ("answer_all, rewrite_all, make_all: the turn", [("answer", "answer_all"), ("rewrite", "rewrite_all"), ("make_list", "make_all")]),
 ("complain: program", [("answer", "complain"), ("rewrite", "complain")]),
 ("the loop over lines of a replay: program", [(c, "main") for c in ("replay", "replay_logarithm", "replay_steps", "replay_calls", "replay_columns", "replay_lines")]),
 ("update_lent, update_records: columns or records", [("lent", "update_lent"), ("lent", "update_records")]),
 ("..answer of replay by its operands: the value's type", [("replay", n) for n in ("refusable_time", "refusable_delta", "refusable_duration", "refusable_float", "refusable_signed", "refusable_rate", "refusable_size")]),
 ("time_of, delta_of, .. : the value's type", [("replay", n) for n in ("time_of", "delta_of", "bool_of", "signed_of", "float_of", "rate_of", "size_of", "usize_of", "option_of", "ordering_of", "partial_of")]),
 ("print_refusable, print_refusable_rate: type", [("replay_steps", "print_refusable"), ("replay_steps", "print_refusable_rate")]),
 ("updated of replay_steps and updated_estimator", [("replay_steps", "updated"), ("loss_controller", "updated_estimator")]),
 ("bounds of replay_steps and of the controller", [("replay_steps", "bounds"), ("loss_controller", "bounds")]),
 ("read_window, window: fifteen lines", [("replay_steps", "read_window"), ("refusals", "window")]),
 ("times, sizes, flags; print_odd_..: column", [("refusals", "times"), ("refusals", "sizes"), ("refusals", "flags")]),
 ("print_odd_time, print_odd_size, print_odd_flag: column", [("refusals", "print_odd_time"), ("refusals", "print_odd_size"), ("refusals", "print_odd_flag")]),
 ("start, controller; rate, alr, report, report_to, summary, totals_to, pair: print, make, judge", [("refusals", n) for n in ("rate", "alr", "report", "report_to", "summary", "totals_to", "pair")]),
 ("sent_at, sized, flagged, delayed: which packet is odd", [("thin_forms", n) for n in ("sent_at", "sized", "flagged", "delayed")]),
 ("Bitrate::min and max: side", [("bandwidth", "min"), ("bandwidth", "max")]),
 ("in_units of rates, sizes and times: the type", [("bandwidth", "in_units"), ("time", "in_units")]),
 ("add, sub of sizes, times and differences: the operation", [("bandwidth", "add"), ("bandwidth", "sub"), ("time", "add"), ("time", "sub")]),
 ("mul_i64, mul_u64: the operand's type", [("bandwidth", "mul_i64"), ("bandwidth", "mul_u64")]),
 ("a packet's checks: of a line, of a report", [("call_line", "packet"), ("packets", "check")]),
 ("add, add_packet: whether it asks first", [("packets", "add"), ("packets", "add_packet")]),
 ("summary, update_records: columns or records", [("packets", "summary"), ("lent", "update_records")]),
 ("row, byte_row: measure", [("observation", "row"), ("observation", "byte_row")]),
 ("EMPTY_ROW: crate", [("observation", "EMPTY_ROW"), ("replay_steps", "EMPTY_ROW")]),
 ("a rate of bits, its bits: crate", [("call_line", "check_bits"), ("call_list", "rate"), ("stored_fields", "rate")]),
 ("number of an outcome: crate", [("call_list", "number"), ("thin_forms", "code")]),
 ("read_chunk, write_chunk: what is tried", [("streams", "read_chunk"), ("streams", "write_chunk")]),
 ("fill, write_all: read or write", [("streams", "fill"), ("streams", "write_all")]),
 ("main of answer, rewrite and make_list: the messages", [("answer", "main"), ("rewrite", "main"), ("make_list", "main")]),
 ("a line kept byte by byte: what its end does", [("rewrite", "rewrite"), ("make_list", "feed"), ("make_list", "take"), ("rewrite", "rewrite_chunk")]),
 ("a call's line in 51 bytes: where it goes", [("rewrite", "call_text"), ("rewrite", "put_call"), ("make_list", "write_call")]),
 ("call, call_shown: what it keeps beside", [("call_list", "call"), ("call_list", "call_shown")]),
 ("Call of the replays: the line's widths", [("replay", "Call"), ("replay_calls", "Call")]),
 ("Answer of the replays: crate", [("replay", "Answer"), ("replay_logarithm", "Answer")]),
 ("a float printed by its bits: crate", [("refusals", "Bits"), ("replay_steps", "Fields")]),
 ("case and ns of a time, of a difference: type", [("stored_fields", "timestamp"), ("replay", "delta")]),
 ("the queue and its report: columns or records", [("replay_calls", "Machine"), ("call_list", "Machine")]),
 ("packets in three columns, for a test: crate", [("refusals", "Report"), ("thin_forms", "Columns")]),
 ("reported of replay_steps and of the controller", [("replay_steps", "reported"), ("loss_controller", "reported")]),
 ("read_..: the value's type", [("replay_steps", n) for n in ("read_rate", "read_option", "read_timestamp", "read_parameters", "read_observation", "read_partial", "read_hold", "read_recovery", "read_settings", "read_estimator", "read_observations")]),
 ("with_sums, with_count; without_estimate, ..: which field is new", [("thin_forms", "with_sums"), ("thin_forms", "with_count"), ("refusals", "without_estimate"), ("refusals", "without_reference"), ("refusals", "without_options")]),
]
if 2 in points:
    where = collections.defaultdict(list)
    for f in FNS: where[(f.crate, f.name)].append((f.file, f.line))
    for t in TYPES: where[(t.crate, t.name)].append((t.file, t.line))
    rows = []
    for what, members in TWINS:
        there = [(m, w) for m in members for w in where.get(m, [])]
        if len(there) > 1:
            (m, (file, line)), rest = there[0], there[1:]
            rows.append((file, line, f"{what}: " + "; ".join(f"{c}::{n} {os.path.basename(f)}:{l}" for (c, n), (f, l) in there)))
    show("2", "groups of twins (by reading; a group counts while two of it stand)", rows)
    print(f"   functions and types in them: {sum(r[2].count('.rt:') for r in rows)}")

# ---- 3
if 3 in points:
    index, other = [], []
    for f in FNS:
        for k, l in enumerate(f.body):
            m = re.match(r"^(\s*)(?:'\w+: )?(while (.*)|loop) \{", l)
            if not m: continue
            e = k
            while e < len(f.body) and f.body[e] != m.group(1) + "}": e += 1
            body = f.body[k + 1:e]; cond = m.group(3) or ""
            row = (f.file, f.start + k, f"fn {f.name}: {l.strip()}")
            step = [v for b in body for v in re.findall(r"^\s*(\w+) [+-]= 1;", b)]
            (index if any(re.search(rf"\b{v}\b", cond) for v in step) or (not cond and step) else other).append(row)
    show("3a", "`while` or `loop` that counts an index by hand", index)
    show("3b", "other `while` and `loop`", other)
    show("3c", "`for _ in 0..u64::MAX` over lines or reads", [(os.path.relpath(p, f"{top}/crates"), n + 1, l.strip()) for p, ls, _, _ in ALL for n, l in enumerate(ls) if "0..u64::MAX" in l])

# ---- 4
if 4 in points:
    W = {"order and equality": r"^(eq|cmp|lt|le|gt|ge|partial_cmp|max|min|compare|larger|smaller)(_duration)?$|^same(_\w+)?$|^compared$|^is_(eq|lt|le|gt|ge)$",
         "conversion": r"^from_\w+$|^(number|state_of|ordering_of|partial_of|values|default|is_word)$|^(exact|positive|negative|sized|delta|taken|answered|refused|fresh|left|calling)$"}
    for k, r in W.items():
        show("4" + "ab"[list(W).index(k)], f"{k} by hand", [(f.file, f.line, f"fn {f.impl + '::' if f.impl else ''}{f.name}{'' if not f.ret else ' ' + f.ret}") for f in FNS if re.match(r, f.name) and not (f.impl and " for " in f.impl)])
    rows = []
    for f in FNS:
        if f.name.startswith("is_") and any(re.match(r"^\s*match ", l) for l in f.body): rows.append((f.file, f.line, f"fn {f.name}"))
    show("4c", "is_.. by a match", rows)
    show("4d", "printing and messages by hand", [(f.file, f.line, f"fn {f.name}") for f in FNS if re.match(r"^(print(_\w+)?|text|field|number|complain(_\w+)?)$", f.name) and ("out" in f.args or "rt" in f.args or "Print" in f.args or f.impl == "Tally")])

# ---- 5
if 5 in points:
    by = collections.defaultdict(list)
    for f in FNS:
        for c in clauses(f, "requires"): by[(f.crate, c)].append(f)
    rows = [(fs[0].file, fs[0].line, f"{len(fs)} functions require {{ {c} }}: " + ", ".join(f"{g.name}:{g.line}" for g in fs)) for (cr, c), fs in sorted(by.items()) if len(fs) >= 3]
    show("5a", "facts required by three or more functions of a crate", rows)
    by = collections.defaultdict(list)
    for f in FNS:
        for c in clauses(f, "ensures"):
            if not re.match(r"result\b", c): by[(f.crate, c)].append(f)
    show("5b", "facts ensured by three or more functions of a crate", [(fs[0].file, fs[0].line, f"{len(fs)} functions ensure {{ {c} }}: " + ", ".join(f"{g.name}:{g.line}" for g in fs)) for (cr, c), fs in sorted(by.items()) if len(fs) >= 3])
    rows = []
    for cr in sorted({f.crate for f in FNS}):
        fs = [f for f in FNS if f.crate == cr]
        norm = lambda t: re.sub(r"&mut |&|'\w+ |; [^]]*", "", t)
        sets = [(f, frozenset((p, norm(t)) for p, t in f.params if p not in ("self", "rt", "out") or "[" in t)) for f in fs]
        cand = set()
        for (_, a), (_, b) in itertools.combinations(sets, 2):
            if len(a & b) >= 2: cand.add(a & b)
        closed = []; cand = sorted(cand, key=sorted)
        for c in cand:
            sup = [f for f, s in sets if c <= s]
            if len(sup) >= 3: closed.append((c, sup))
        for c, sup in closed:
            if any(c < d and len(s2) >= len(sup) for d, s2 in closed): continue
            rows.append((sup[0].file, sup[0].line, f"{len(sup)} functions take ({', '.join(sorted(p + ': ' + t for p, t in c))}): " + ", ".join(f"{g.name}:{g.line}" for g in sup)))
    show("5c", "parameters that travel together through three or more functions of a crate", rows)

# ---- 6
if 6 in points:
    LEN = r"(len|count|kept|queued|places|written|read)"
    rows = []
    for t in TYPES:
        arr = [l.strip() for l in t.body if re.match(r"^\s*(?:pub(?:\([a-z]+\))? )?\w+: \[", l)]
        ln = [l.strip() for l in t.body if re.match(rf"^\s*(?:pub(?:\([a-z]+\))? )?{LEN}: (usize|u64)", l)]
        if t.kind == "struct" and arr and ln: rows.append((t.file, t.line, f"struct {t.name}: {arr[0]} {ln[0]}"))
    show("6a", "structs with an array and its length beside", rows)
    rows = []
    for f in FNS:
        bufs = [p for p, t in f.params if "[" in t]
        lens = [p for p, t in f.params if re.match(r"^(len|count|w|from|written|queued|place|slot|kept|n)$", p) and t in ("usize", "u64")]
        if bufs and lens: rows.append((f.file, f.line, f"fn {f.name}({', '.join(bufs)}; {', '.join(lens)})"))
    show("6b", "functions that take a buffer and a length or place in it", rows)
    rows = []
    for f in FNS:
        bufs = [p for p, t in f.params if re.search(r"\[", t)]
        if {"times", "sizes", "flags"} <= set(bufs): rows.append((f.file, f.line, f"fn {f.name}(times, sizes, flags)"))
    show("6c", "parallel arrays: functions that take three columns", rows)
    show("6d", "arrays filled slot by slot, written out", [(f.file, f.line, f"fn {f.name}") for f in FNS if re.search(r"\[a, b, c, d, e", "\n".join(f.body))])

# ---- 7
if 7 in points:
    rows, flags = [], []
    for f in FNS:
        for k, l in enumerate(f.body):
            m = re.match(r"^(\s*)(?:.*\b)?match (.*) \{$", l)
            if m:
                nxt = [x for x in f.body[k + 1:k + 12] if "=>" in x]
                if nxt and re.match(r"^\s*(?:0x)?[\dA-F_]+(?:\.\.=|\s*\||\s*=>)", nxt[0]) : rows.append((f.file, f.start + k, f"fn {f.name}: match {m.group(2)} with numbers"))
            m = re.match(r"^\s*if (!?)(\w+)(?:\(| \{)", l)
            if m and any(p == m.group(2) and t == "bool" for p, t in f.params): flags.append((f.file, f.start + k, f"fn {f.name}: {l.strip()}"))
            if re.search(r"^\s*if (use_byte_loss_ratio|!use_byte_loss_ratio|self\.use_byte_loss_ratio|quiet\.calls)", l) and (f.file, f.start + k) not in [(a, b) for a, b, _ in flags]: flags.append((f.file, f.start + k, f"fn {f.name}: {l.strip()}"))
    show("7a", "matches on a number that pick what to do", rows)
    show("7b", "a bool that picks what to do", flags)
    rows = []
    for f in FNS:
        n = sum("if is_word(" in l for l in f.body)
        if n >= 2: rows.append((f.file, f.line, f"fn {f.name}: {n} comparisons one after another"))
    show("7c", "chains of comparisons in place of a table", rows)

# ---- 8
if 8 in points:
    print("\n== 8 proof files: answers, invariants and whole proofs of functions, and lemma files")
    tot = collections.Counter()
    print("   crate: Answers.antt (lines), Invariants.antt (lines), Proof.antt, lemma files (lines), specs (lines), functions")
    for cr in sorted({f.crate for f in FNS} | {os.path.basename(d.rstrip('/')) for d in glob.glob(f"{top}/crates/*/")}):
        c = collections.Counter()
        for root, _, fs in os.walk(f"{top}/crates/{cr}/proofs"):
            for x in fs:
                n = len(open(os.path.join(root, x), encoding="utf-8").read().split("\n")) - 1
                k = {"Answers.antt": "A", "Invariants.antt": "I", "Proof.antt": "P", "Lib.antt": None}.get(x, "L")
                if k: c[k] += 1; c[k + "l"] += n
        for root, _, fs in os.walk(f"{top}/crates/{cr}/specs"):
            for x in fs:
                if x != "Lib.antt": c["Sl"] += len(open(os.path.join(root, x), encoding="utf-8").read().split("\n")) - 1
        n = sum(f.crate == cr for f in FNS); c["F"] = n
        for k in c: tot[k] += c[k]
        print(f"   {cr}: {c['A']} ({c['Al']}), {c['I']} ({c['Il']}), {c['P']}, {c['L']} ({c['Ll']}), ({c['Sl']}), {n}")
    print(f"   all: {tot['A']} ({tot['Al']}), {tot['I']} ({tot['Il']}), {tot['P']}, {tot['L']} ({tot['Ll']}), ({tot['Sl']}), {tot['F']}")
    TOTAL["8 Answers.antt"] = (tot["A"], {}); TOTAL["8 Invariants.antt"] = (tot["I"], {}); TOTAL["8 lemma files"] = (tot["L"], {})
print("\n== totals" + (": found, kept with a reason, to do" if KEPT else ""))
for k, (n, _) in TOTAL.items():
    to_do = UNKEPT.get(k.split()[0], 0)
    print(f"   {k}: {n}" + (f", {n - to_do}, {to_do}" if KEPT and k[0] != "8" else ""))
stale = [f"{p} {key}" for (p, key), (seen, _) in KEPT.items() if not seen and int(p) in points]
for s in stale: print(f"   the page keeps what nothing finds: {s}")
print(f"   functions: {len(FNS)}; lines of src: {sum(len(ls) - 1 for _, ls, _, _ in ALL)}")
long = [(f.file, f.line, f.name, len(f.body)) for f in FNS if len(f.body) >= 38]
print(f"   functions of 38 lines of body or more: {len(long)}: " + ", ".join(f"{n} {a}:{b} ({k})" for a, b, n, k in long))
sys.exit(1 if KEPT and (stale or any(UNKEPT.values())) else 0)
