#!/usr/bin/env python3
"""Writes the tables of the crate natives from the lines below, as definitions and as Rust.

It writes in crates/natives
    specs/Names.antt, Signatures.antt, Structures.antt, Constants.antt    the definitions
    src/native.rt, short_name.rt, signatures.rt, field.rt, supplied.rt, predefined.rt, constant.rt    the same as code
    proofs    that each spelling and each number finds its own entry
and docs/natives.md. Nothing trusts it: a reader compares the definitions with the MQL5 Reference, and the check of the crate
proves that the code has the definitions' values. `rt fmt` in the crate lays the code out behind it.

    python3 tools/native_tables.py
"""
import re
from pathlib import Path

ROOT = Path(__file__).resolve().parent.parent
CRATE = ROOT / "crates" / "natives"

# ---- the native functions, in the order of their numbers
#
#     [short NAME] RESULT NAME(parameters) : where it is answered, and the last errors that it may set
#
# A parameter is a type and a name, with `&` where the function changes what is lent, `[]` for an array, and `=` with its default.
# `number` is any number; `common` numbers are taken to their common type where all are integers, else to double; `like[]` is an
# array whose elements fit those of the array before it; `...` is any number of numbers, enumerations and strings.

NATIVES = """
# Strings: MQL5 Reference, String Functions; Conversion Functions
int StringLen(string s) : pure
string StringSubstr(string s, int start, int len=-1) : pure invalid
int StringFind(string s, string part, int start=0) : pure invalid
int StringReplace(string& s, string part, string by) : pure
int StringTrimLeft(string& s) : pure
int StringTrimRight(string& s) : pure
bool StringToLower(string& s) : pure
bool StringToUpper(string& s) : pure
ushort StringGetCharacter(string s, int i) : pure invalid
bool StringSetCharacter(string& s, int i, ushort c) : pure invalid
int StringSplit(string s, ushort sep, string[]& out) : pure invalid
int StringCompare(string a, string b, bool case=1) : pure
long StringToInteger(string s) : pure
double StringToDouble(string s) : pure
string IntegerToString(long n, int width=0, ushort fill=32) : pure
string DoubleToString(double v, int digits=8) : pure
string TimeToString(datetime t, int flags=3) : pure invalid
string CharToString(uchar c) : pure
string ShortToString(ushort c) : pure
string EnumToString(enum e) : compiler
string StringFormat(string f, ...) : pure
# Arrays: MQL5 Reference, Array Functions; Common Functions, ZeroMemory
int ArraySize(any[] a) : pure
int ArrayRange(any[] a, int dim) : store invalid
int ArrayResize(any[]& a, int n, int reserve=0) : pure invalid
void ArrayFree(any[]& a) : pure invalid
int ArrayInitialize(number[]& a, number v) : pure
int ArrayCopy(any[]& d, like[] s, int ds=0, int ss=0, int count=-1) : pure invalid
bool ArraySetAsSeries(any[]& a, bool flag) : store
bool ArrayGetAsSeries(any[] a) : store
bool ArraySort(number[]& a) : pure
int ArrayMaximum(number[] a, int start=0, int count=-1) : pure invalid
int ArrayMinimum(number[] a, int start=0, int count=-1) : pure invalid
bool ArrayIsDynamic(any[] a) : store
void ZeroMemory(variable& x) : store
# Maths: MQL5 Reference, Math Functions; Conversion Functions, NormalizeDouble
short fabs common MathAbs(common x) : pure
short fmax common MathMax(common x, common y) : pure
short fmin common MathMin(common x, common y) : pure
short floor double MathFloor(double x) : pure
short ceil double MathCeil(double x) : pure
short round double MathRound(double x) : pure
short sqrt double MathSqrt(double x) : pure
short fmod double MathMod(double x, double y) : pure
short pow double MathPow(double x, double y) : pure
short rand int MathRand() : world
short srand void MathSrand(int x) : world
bool MathIsValidNumber(double x) : pure
double NormalizeDouble(double v, int digits) : pure
# Objects: MQL5 Reference, Common Functions, GetPointer, CheckPointer
pointer GetPointer(object o) : store
int CheckPointer(pointer p) : store
# Program: MQL5 Reference, Common Functions; Date and Time; Checkup
void Print(...) : world
short printf void PrintFormat(string f, ...) : world
void Comment(...) : pure
datetime TimeCurrent() : world
datetime TimeLocal() : world
datetime TimeGMT() : world
bool TimeToStruct(datetime t, MqlDateTime& d) : pure invalid
datetime StructToTime(MqlDateTime d) : pure invalid
void ExpertRemove() : world
int GetLastError() : world
void ResetLastError() : world
string Symbol() : world
int Period() : world
bool IsStopped() : pure
int UninitializeReason() : world
int MQLInfoInteger(int id) : world invalid
double TesterStatistics(int id) : world invalid
# Account and symbol: MQL5 Reference, Account Information; Market Info
double AccountInfoDouble(int id) : world invalid
long AccountInfoInteger(int id) : world invalid
string AccountInfoString(int id) : world invalid
double SymbolInfoDouble(string s, int id) : world invalid symbol
long SymbolInfoInteger(string s, int id) : world invalid symbol
bool SymbolInfoTick(string s, MqlTick& tick) : world symbol
# Series: MQL5 Reference, Timeseries and Indicators Access; Technical Indicators
datetime iTime(string s, int tf, int shift) : world invalid symbol
double iOpen(string s, int tf, int shift) : world invalid symbol
double iHigh(string s, int tf, int shift) : world invalid symbol
double iLow(string s, int tf, int shift) : world invalid symbol
double iClose(string s, int tf, int shift) : world invalid symbol
long iVolume(string s, int tf, int shift) : world invalid symbol
int Bars(string s, int tf) : world invalid symbol
int CopyRates(string s, int tf, int start, int count, MqlRates[]& a) : world invalid symbol history
int CopyTime(string s, int tf, int start, int count, datetime[]& a) : world invalid symbol history
int CopyOpen(string s, int tf, int start, int count, double[]& a) : world invalid symbol history
int CopyHigh(string s, int tf, int start, int count, double[]& a) : world invalid symbol history
int CopyLow(string s, int tf, int start, int count, double[]& a) : world invalid symbol history
int CopyClose(string s, int tf, int start, int count, double[]& a) : world invalid symbol history
int CopyTickVolume(string s, int tf, int start, int count, long[]& a) : world invalid symbol history
int iMA(string s, int tf, int length, int shift, int method, int price) : world invalid symbol
int iATR(string s, int tf, int length) : world invalid symbol
int iRSI(string s, int tf, int length, int price) : world invalid symbol
int CopyBuffer(int number, int buffer, int start, int count, double[]& a) : world invalid history handle
int BarsCalculated(int number) : world handle
# Trade: MQL5 Reference, Trade Functions
bool OrderSend(MqlTradeRequest q, MqlTradeResult& r) : world refused
int PositionsTotal() : world
ulong PositionGetTicket(int i) : world invalid position
string PositionGetSymbol(int i) : world invalid position
bool PositionSelect(string s) : world symbol position
bool PositionSelectByTicket(ulong t) : world position
double PositionGetDouble(int id) : world invalid position
long PositionGetInteger(int id) : world invalid position
string PositionGetString(int id) : world invalid position
int OrdersTotal() : world
ulong OrderGetTicket(int i) : world invalid order
bool OrderSelect(ulong t) : world order
double OrderGetDouble(int id) : world invalid order
long OrderGetInteger(int id) : world invalid order
string OrderGetString(int id) : world invalid order
bool HistorySelect(datetime from, datetime to) : world
int HistoryDealsTotal() : world
ulong HistoryDealGetTicket(int i) : world invalid deal
double HistoryDealGetDouble(ulong t, int id) : world invalid deal
long HistoryDealGetInteger(ulong t, int id) : world invalid deal
string HistoryDealGetString(ulong t, int id) : world invalid deal
"""

# ---- the named constants: PREFIX with what goes on and its value, or names from 0 on

CONSTANTS = """
# Conversion Functions, TimeToString: what of a time is written
TIME_ DATE=1 MINUTES=2 SECONDS=4
# Codes of the checkup functions, MQLInfoInteger
MQL_ TESTER OPTIMIZATION
# Testing Statistics
STAT_ INITIAL_DEPOSIT PROFIT GROSS_PROFIT GROSS_LOSS DEALS TRADES PROFIT_TRADES LOSS_TRADES BALANCE_DD EQUITY_DD
# Account Properties: double, integer, string
ACCOUNT_ BALANCE PROFIT EQUITY MARGIN MARGIN_FREE MARGIN_LEVEL
ACCOUNT_ LEVERAGE MARGIN_MODE
ACCOUNT_ CURRENCY
# Symbol Properties: double, integer
SYMBOL_ BID ASK LAST POINT TRADE_TICK_SIZE TRADE_TICK_VALUE TRADE_CONTRACT_SIZE VOLUME_MIN VOLUME_MAX VOLUME_STEP
SYMBOL_ DIGITS SPREAD TRADE_STOPS_LEVEL
# Position Properties: double, integer, string
POSITION_ VOLUME PRICE_OPEN PRICE_CURRENT SL TP PROFIT SWAP
POSITION_ TICKET TYPE MAGIC IDENTIFIER TIME
POSITION_ SYMBOL COMMENT
POSITION_TYPE_ BUY SELL
# Order Properties: double, integer, string
ORDER_ VOLUME_CURRENT PRICE_OPEN SL TP PRICE_STOPLIMIT
ORDER_ TICKET TYPE MAGIC TIME_SETUP TIME_EXPIRATION TYPE_TIME
ORDER_ SYMBOL COMMENT
ORDER_TYPE_ BUY SELL BUY_LIMIT SELL_LIMIT BUY_STOP SELL_STOP BUY_STOP_LIMIT SELL_STOP_LIMIT CLOSE_BY
ORDER_FILLING_ FOK IOC RETURN
ORDER_TIME_ GTC DAY SPECIFIED SPECIFIED_DAY
# Deal Properties: double, integer, string
DEAL_ VOLUME PRICE PROFIT SWAP COMMISSION
DEAL_ TICKET ORDER TIME TYPE ENTRY MAGIC POSITION_ID REASON
DEAL_ SYMBOL COMMENT
DEAL_TYPE_ BUY SELL BALANCE
DEAL_ENTRY_ IN OUT INOUT OUT_BY
# Trade Operation Types
TRADE_ACTION_ DEAL=1 PENDING=5 SLTP=6 MODIFY=7 REMOVE=8 CLOSE_BY=10
# Return Codes of the Trade Server
TRADE_RETCODE_ PLACED=10008 DONE=10009 INVALID=10013 INVALID_VOLUME=10014 INVALID_PRICE=10015 INVALID_STOPS=10016
TRADE_RETCODE_ NO_MONEY=10019 PRICE_OFF=10021 INVALID_EXPIRATION=10022 NO_CHANGES=10025 INVALID_FILL=10030
TRADE_RETCODE_ LIMIT_ORDERS=10033 INVALID_ORDER=10035 POSITION_CLOSED=10036 INVALID_CLOSE_VOLUME=10038
# Chart Timeframes
PERIOD_ CURRENT=0 M1=1 M5=5 M15=15 M30=30 H1=16385 H4=16388 D1=16408
# Price Constants; Smoothing Methods
PRICE_ CLOSE=1 OPEN=2 HIGH=3 LOW=4 MEDIAN=5 TYPICAL=6 WEIGHTED=7
MODE_ SMA EMA SMMA LWMA
# Program Running, OnInit; Uninitialization Reason Codes
INIT_ SUCCEEDED FAILED PARAMETERS_INCORRECT AGENT_NOT_SUITABLE
REASON_ PROGRAM=0 REMOVE=1 INITFAILED=8
# Other Constants
INVALID_ HANDLE=-1
WHOLE_ ARRAY=-1
"""

# names, types and values of the other constants: Numerical Type Constants; Other Constants; Web Colors
TYPED = """
INT_MIN int -2147483648
INT_MAX int 2147483647
UINT_MAX uint 4294967295
LONG_MIN long -9223372036854775808
LONG_MAX long 9223372036854775807
ULONG_MAX ulong 18446744073709551615
DBL_MAX double 9223372036854775807
EMPTY_VALUE double 9223372036854775807
clrBlack color 0,0,0
clrWhite color 255,255,255
clrRed color 255,0,0
clrGreen color 0,128,0
clrBlue color 0,0,255
clrYellow color 255,255,0
"""

# ---- the supplied structures: MQL5 Reference, Structures and Classes of ...

STRUCTURES = """
MqlTradeRequest: int action, ulong magic, ulong order, string symbol, double volume, double price, double stoplimit, double sl, double tp, ulong deviation, int type, int type_filling, int type_time, datetime expiration, string comment, ulong position, ulong position_by
MqlTradeResult: uint retcode, ulong deal, ulong order, double volume, double price, double bid, double ask, string comment, uint request_id, int retcode_external
MqlTick: datetime time, double bid, double ask, double last, ulong volume, long time_msc, uint flags, double volume_real
MqlRates: datetime time, double open, double high, double low, double close, long tick_volume, int spread, long real_volume
MqlDateTime: int year, int mon, int day, int hour, int min, int sec, int day_of_week, int day_of_year
"""

NAMES_OF_INT = """ENUM_TIMEFRAMES ENUM_MA_METHOD ENUM_APPLIED_PRICE ENUM_TRADE_REQUEST_ACTIONS ENUM_ORDER_TYPE
ENUM_ORDER_TYPE_FILLING ENUM_ORDER_TYPE_TIME ENUM_POSITION_TYPE ENUM_DEAL_TYPE ENUM_DEAL_ENTRY"""

PREDEFINED = """string __FILE__, int __LINE__, string __FUNCTION__, string _Symbol, int _Period, double _Point, int _Digits, int _LastError"""

# ---- reading the lines


class Native:
    def __init__(self, line, chapter):
        left, right = line.split(" : ")
        words = left.split(" ")
        self.short = None
        if words[0] == "short":
            self.short, words = words[1], words[2:]
        self.result = words[0]
        name, inside = re.fullmatch(r"(\w+)\((.*)\)", " ".join(words[1:])).groups()
        self.name, self.chapter, self.inside = name, chapter, inside
        pieces = inside.replace("...", "rest values").split(", ") if inside else []
        self.parameters = [tuple(re.fullmatch(r"([^ ]+) (\w+)(?:=(-?\d+))?", p).groups()) for p in pieces]
        self.answered, *self.errors = right.split(" ")


def natives():
    chapter = None
    for line in NATIVES.strip().split("\n"):
        if line.startswith("# "):
            chapter = line[2:]
        else:
            yield Native(line, chapter)


def camel(name):
    if "_" not in name and not name.isupper():
        return name[0].upper() + name[1:]
    return "".join(w[0].upper() + w[1:].lower() for w in re.split("_+", name) if w)


ALL = list(natives())


def write(path, text):
    path = CRATE / path
    path.parent.mkdir(parents=True, exist_ok=True)
    path.write_text(text, encoding="utf-8")


# ---- the names of things that are spelled: an enum, its spellings, the thing of a spelling


class Spelled:
    """Things with names: an enum, how each is spelled, and which one a text is."""

    def __init__(self, kind, word, spec, things, about, law, derive="Clone, Copy, Debug, PartialEq, Eq", inside=""):
        self.kind, self.word, self.spec, self.things = kind, word, spec, things  # things: (variant, spelling, comment)
        self.about, self.law, self.derive, self.inside = about, law, derive, inside
        self.all, self.alias = word.upper() + "S", word + "s"

    def rust(self):
        kind, word, spec = self.kind, self.word, self.spec
        variants = "".join(f"    /// `{s}`\n    {v},\n" for v, s, _ in self.things)
        table = "".join(f"    {kind}::{v},\n" for v, _, _ in self.things)
        arms = "".join(f'            {kind}::{v} => b"{s}".as_slice(),\n' for v, s, _ in self.things)
        return f"""{self.about}
#[derive({self.derive})]
pub enum {kind} {{
{variants}}}

/// Each of them, in order.
pub const {self.all}: [{kind}; {len(self.things)}] = [
{table}];

impl {kind} {{
    /// How it is spelled.
    #[tactic(auto, unfolding(crate::specs::{spec}::{word}_spelling))]
    pub fn spelling(self) -> &'static [u8]
        ensures {{ result.now ≡ {word}_spelling self }}
    {{
        match self {{
{arms}        }}
    }}
{self.inside}}}

/// The first of some of them that is spelled so.
fn {word}_among({self.alias}: &[{kind}], units: &[u16]) -> Option<{kind}>
    ensures {{ result ≡ spelled_among {word}_spelling {self.alias}.now units.now }}
{{
    let mut rest = {self.alias};
    while let [{word}, others @ ..] = rest {{
        if is_spelled(units, {word}.spelling()) {{
            return Some(*{word});
        }}
        rest = others;
    }}
    None
}}

/// The one that is spelled so, if there is one.
#[tactic(auto, unfolding(crate::specs::{spec}::{word}_named))]
pub fn {word}_named(units: &[u16]) -> Option<{kind}>
    ensures {{ result ≡ {word}_named units.now }}
{{
    {word}_among(&{self.all}, units)
}}

/// {self.law}
pub fn {self.alias}_by_spelling()
    ensures {{ (units : List ℕ) ({word} : {self.alias}.{kind}) → ({word}_named units ≡ Some {word})
        ↔ (units ≡ {word}_spelling {word}) }}
{{}}
"""

    def heads(self, module):
        """The imports of its specification and proofs."""
        at = f"Rattle.natives.specs.declared.{module}"
        return f"""use {at}.{self.kind}.{{{self.kind}}}
use {at}.{self.kind}.TheVariants as {self.alias}
use {at}.TheConstants.{{{self.all}}}
"""

    def clauses(self):
        out, said = [f"-- how it is spelled\nunfoldable pub {self.word}_spelling : {self.kind} → List ℕ\n"], None
        for v, s, comment in self.things:
            if comment != said:
                out.append(f"-- {comment}\n")
                said = comment
            out.append(f'{self.word}_spelling {self.alias}.{v} = codes "{s}"\n')
        return "".join(out) + f"""
-- the one that is spelled so: of two no spelling is one, and `{self.all}` is each of them
unfoldable pub {self.word}_named : List ℕ → Option {self.kind}
{self.word}_named us = spelled_among {self.word}_spelling {self.all} us
"""

    def proofs(self, module, file):
        word = self.word
        write(f"proofs/{file}.antt", f"""-- Each is found by its spelling.
use Rattle.std.proofs.Common.{{◌≡◌, ℕ, List, refl, ap, ◌∙◌, Some, ◌↔◌}}
{self.heads(module)}use Rattle.natives.specs.{self.spec}.{{{word}_spelling, {word}_named}}
use Rattle.mql_spelling.proofs.Spelled.{{found_by}}

pub found : ({word} : {self.kind}) → {word}_named ({word}_spelling {word}) ≡ Some {word}
unfolding {word}_spelling {word}_named
{"".join(f"found {self.alias}.{v} = refl" + chr(10) for v, _, _ in self.things)}
-- a text is the name of one exactly where it is its spelling
pub by_spelling : (us : List ℕ) ({word} : {self.kind}) → ({word}_named us ≡ Some {word}) ↔ (us ≡ {word}_spelling {word})
unfolding {word}_named
by_spelling us {word} = (found_by {word}_spelling {self.all} us {word}, λ e. ap {word}_named e ∙ found {word})
""")
        write(f"proofs/{module}/{word}_among/Invariants.antt", f"""use Rattle.std.proofs.Common.{{◌≡◌, length}}
use Rattle.natives.specs.{self.spec}.{{{word}_spelling}}
use Rattle.mql_spelling.specs.Spelled.{{spelled_among}}
use Rattle.natives.proofs.{module}.{word}_among.Given as goal

abbrev pub invariant-loop-rest : goal.invariant-loop-rest
invariant-loop-rest l =
    spelled_among {word}_spelling l.rest l.units ≡ spelled_among {word}_spelling l.fn.{self.alias} l.fn.units

abbrev pub decreases-loop-rest : goal.decreases-loop-rest
decreases-loop-rest l = length l.rest
""")
        write(f"proofs/{module}/{self.alias}_by_spelling/Answers.antt", f"""use Rattle.natives.proofs.{file}.{{by_spelling}}
use Rattle.natives.proofs.{module}.{self.alias}_by_spelling.Goals as goal

pub returns : goal.returns
returns c = by_spelling
""")


# ---- the types of parameters and results

KINDS = "bool char uchar short ushort int uint long ulong datetime color".split(" ")
SIMPLE = [*KINDS, "double", "string"]
NAMES = {"MqlTradeRequest", "MqlTradeResult", "MqlTick", "MqlRates", "MqlDateTime"}
ERRORS = {"invalid": "InvalidParameter", "symbol": "UnknownSymbol", "history": "HistoryNotFound",
          "position": "PositionNotFound", "order": "OrderNotFound", "deal": "DealNotFound",
          "refused": "TradeSendFailed", "handle": "WrongIndicatorHandle"}
ERROR_NUMBERS = {"invalid": 4003, "symbol": 4301, "history": 4401, "position": 4753, "order": 4754, "deal": 4755,
                 "refused": 4756, "handle": 4807}
OTHERS = {"number": "Number", "common": "Common", "enum": "Enumeration", "object": "Object", "pointer": "Pointer",
          "variable": "Variable", "rest": "Rest"}
ELEMENTS = {"any": "Any", "number": "Numbers", "like": "Matching"}


def rust_simple(t):
    return {"double": "SimpleType::Double", "string": "SimpleType::String"}.get(t) or \
        f"SimpleType::Integer(IntKind::{t.capitalize()})"


def whole(n):
    return f"(pos {n})" if n >= 0 else f"(negsuc {-n - 1})"


def spec_parameter(kind, default):
    changed = kind.endswith("&")
    kind = kind.rstrip("&")
    if kind.endswith("[]"):
        e = kind[:-2]
        of = {"any": "any", "number": "numbers", "like": "matching"}.get(e) or \
            (f"(structures {e})" if e in NAMES else f"(of {e})")
        return f"{'changed_' if changed else ''}array {of}"
    if kind in NAMES:
        return f"{'changed_' if changed else ''}structure {kind}"
    if kind in SIMPLE:
        if default is not None:
            return f"optional {kind} {whole(int(default))}"
        return f"{'changed' if changed else 'value'} {kind}"
    return {"number": "number", "common": "common", "enum": "enumeration", "object": "object", "pointer": "pointer",
            "variable": "changed_variable", "rest": "rest"}[kind]


def rust_parameter(kind, default):
    passing = "Reference" if kind.endswith("&") else "Value"
    kind = kind.rstrip("&")
    if kind.endswith("[]"):
        e = kind[:-2]
        of = f"Elements::{ELEMENTS[e]}" if e in ELEMENTS else \
            (f"Elements::Structures(Structure::{e})" if e in NAMES else f"Elements::Simple({rust_simple(e)})")
        what = f"Array({of})"
    elif kind in NAMES:
        what = f"Structure(Structure::{kind})"
    elif kind in SIMPLE:
        what = f"Simple({rust_simple(kind)})"
    else:
        what = OTHERS[kind]
    value = "None" if default is None else f"Some({default})"
    return f"Parameter {{ kind: ParameterKind::{what}, passing: Passing::{passing}, default: {value} }}"


def spec_result(t):
    return {"void": "nothing", "common": "common_number", "pointer": "to_object"}.get(t, f"(a {t})")


def rust_result(t):
    return {"void": "ResultType::Void", "common": "ResultType::Common", "pointer": "ResultType::Pointer"}.get(t) or \
        f"ResultType::Simple({rust_simple(t)})"


def chain(items):
    return f"({' ∷ '.join([*items, '[]'])})" if items else "[]"


def signature(n):
    answered = {"pure": "pure", "store": "by_store", "compiler": "by_compiler", "world": "by_world"}[n.answered]
    parameters = chain([spec_parameter(k, d) for k, _, d in n.parameters])
    return f"{answered} {spec_result(n.result)} {parameters} {chain(n.errors)}"


def filled(items, indent="    ", width=100):
    """Items with commas behind them, in lines of a width."""
    done, line = [], indent
    for item in items:
        if len(line) + len(item) + 1 > width and line.strip():
            done.append(line.rstrip())
            line = indent
        line += f"{item}, "
    return "\n".join([*done, line.rstrip()])


def starts(lists):
    place, out = 0, [0]
    for items in lists:
        place += len(items)
        out.append(place)
    return out


# ---- native functions


FUNCTIONS = Spelled(
    "Native", "native", "Names", [(camel(n.name), n.name, n.chapter) for n in ALL],
    "/// A native function: one that the language supplies (MQL5 Reference), in the order of their numbers.",
    "A text is the full name of a native function exactly where it is that function's spelling.", inside="""
    /// Its number, from 0 on.
    #[tactic(auto, unfolding(crate::specs::Names::native_number))]
    pub fn number(self) -> u8
        ensures { result ≡ native_number self }
    {
        self as u8
    }
""")
SHORTS = Spelled(
    "ShortName", "short", "Names", [(camel(n.short), n.short, "Math Functions; Common Functions, PrintFormat") for n in ALL if n.short],
    "/// A second name that a native function has (MQL5 Reference, Math Functions).",
    "A text is a short name exactly where it is that name's spelling.", inside=f"""
    /// The function that it names.
    pub fn native(self) -> Native
        ensures {{ result ≡ native_of_short self }}
    {{
        match self {{
{"".join(f"            ShortName::{camel(n.short)} => Native::{camel(n.name)},{chr(10)}" for n in ALL if n.short)}        }}
    }}
""")


def names():
    write("src/native.rt", f"""//! The native functions and their numbers.
ghost use Rattle.std.specs.Prelude.{{◌≡◌, ◌↔◌, ℕ, List, Some, slice_get}};
ghost use Rattle.natives.specs.declared.native.Native as natives;
ghost use Rattle.natives.specs.Names.{{native_spelling, native_number, native_named, native_at}};
ghost use Rattle.mql_spelling.specs.Spelled.{{spelled_among}};

use mql_spelling::is_spelled;

{FUNCTIONS.rust()}
/// The function at a place among some.
fn native_in(natives: &[Native], place: u16) -> Option<Native>
    ensures {{ result ≡ slice_get natives.now place }}
{{
    natives.get(usize::from(place)).copied()
}}

/// The function of a number, if there is one.
#[tactic(auto, unfolding(crate::specs::Names::native_at))]
pub fn native_at(number: u16) -> Option<Native>
    ensures {{ result ≡ native_at number }}
{{
    native_in(&NATIVES, number)
}}

/// A number is that of a function exactly where the function's number is this one.
pub fn natives_by_number()
    ensures {{ (number : ℕ) (native : natives.Native) → (native_at number ≡ Some native)
        ↔ (native_number native ≡ number) }}
{{}}
""")
    write("src/short_name.rt", f"""//! The short names of native functions, and which function a name means.
ghost use Rattle.std.specs.Prelude.{{◌≡◌, ◌↔◌, ℕ, List, Some}};
ghost use Rattle.natives.specs.declared.short_name.ShortName as shorts;
ghost use Rattle.natives.specs.declared.native.Native.{{Native as native}};
ghost use Rattle.natives.specs.Names.{{short_spelling, short_named, native_of_short, named, IsNameOf}};
ghost use Rattle.mql_spelling.specs.Spelled.{{spelled_among}};

use crate::native::{{Native, native_named}};
use mql_spelling::is_spelled;

{SHORTS.rust()}
/// The function that a name means, if there is one: by its full name or a short one.
#[tactic(auto, unfolding(crate::specs::Names::named))]
pub fn named(units: &[u16]) -> Option<Native>
    ensures {{ result ≡ named units.now }}
{{
    match native_named(units) {{
        Some(native) => Some(native),
        None => match short_named(units) {{
            Some(short) => Some(short.native()),
            None => None,
        }},
    }}
}}

/// A text means a function exactly where it is its full name or one of its short ones.
pub fn named_by_spelling()
    ensures {{ (units : List ℕ) (n : native) → (named units ≡ Some n) ↔ IsNameOf n units }}
{{}}
""")
    shorts = "".join(f"native_of_short shorts.{camel(n.short)} = natives.{camel(n.name)}\n" for n in ALL if n.short)
    write("specs/Names.antt", f"""-- The native functions: their names, short names and numbers (MQL5 Reference; the chapters stand below).
use Rattle.std.specs.Prelude.{{◌≡◌, ℕ, List, codes, Option, Some, None, slice_get, ◌⊎◌}}
{FUNCTIONS.heads("native")}{SHORTS.heads("short_name")}use Rattle.mql_spelling.specs.Spelled.{{spelled_among}}

{FUNCTIONS.clauses()}
{SHORTS.clauses()}
-- the function that a short name means
abbrev pub native_of_short : ShortName → Native
{shorts}
-- the function of a short name, where there is one
abbrev pub of_short : Option ShortName → Option Native
of_short None = None
of_short (Some short) = Some (native_of_short short)

-- the one by its full name, else the one by a short name
abbrev pub either_name : Option Native → Option Native → Option Native
either_name None other = other
either_name (Some native) other = Some native

-- the function that a name means
unfoldable pub named : List ℕ → Option Native
named us = either_name (native_named us) (of_short (short_named us))

-- a text is a name of a function: its full name or one of its short ones
abbrev pub IsNameOf : Native → List ℕ → Type 0
IsNameOf native us =
    (us ≡ native_spelling native)
    ⊎ ((short : ShortName) × (us ≡ short_spelling short) × (native_of_short short ≡ native))

-- the number of a function: its place in this list, from 0 on (own)
unfoldable pub native_number : Native → ℕ
{"".join(f"native_number natives.{camel(n.name)} = {k}{chr(10)}" for k, n in enumerate(ALL))}
-- the function of a number: `NATIVES` is each of them in order
unfoldable pub native_at : ℕ → Option Native
native_at number = slice_get NATIVES number
""")
    FUNCTIONS.proofs("native", "NativeNames")
    SHORTS.proofs("short_name", "ShortNames")


names()


def numbers_proof():
    write("proofs/Numbers.antt", f"""-- Each native function is told by its number, and by each of its names.
use Rattle.std.proofs.Common.{{◌≡◌, ℕ, zero, suc, ◌+◌, Bool, true, false, ◌&&◌, nat_eq, List, [], ◌∷◌, Option, Some, None, slice_get, refl, ap, ◌∙◌, sym, ◌↔◌, ◌⊎◌, inl, inr, arith}}
{FUNCTIONS.heads("native")}{SHORTS.heads("short_name")}use Rattle.natives.specs.Names.{{native_spelling, native_number, native_named, native_at, short_spelling, short_named, native_of_short, of_short, either_name, named, IsNameOf}}
use Rattle.natives.proofs.NativeNames.{{by_spelling}}
use Rattle.natives.proofs.ShortNames.{{by_spelling as short_by_spelling}}

-- the functions of a list have the numbers from one on
abbrev numbered : ℕ → List Native → Bool
numbered k [] = true
numbered k (n ∷ ns) = nat_eq (native_number n) k && numbered (suc k) ns

in_order : numbered 0 NATIVES ≡ true
unfolding native_number
in_order = refl

and_both : (a b : Bool) → (a && b) ≡ true → (a ≡ true) × (b ≡ true)
and_both true b h = (refl, h)
and_both false b h = absurd (let q : false ≡ true = h in cc)

eq_same : (a b : ℕ) → nat_eq a b ≡ true → a ≡ b
eq_same a b h = grind arith

place_number : (ns : List Native) (j k : ℕ) (n : Native) → numbered j ns ≡ true → slice_get ns k ≡ Some n → native_number n ≡ j + k
place_number [] j k n h g = absurd (let q : ◌≡◌ {{A = Option Native}} None (Some n) = g in cc)
place_number (m ∷ ns) j zero n h g =
    let two = and_both (nat_eq (native_number m) j) (numbered (suc j) ns) h in
    let same : m ≡ n = cc in
    let e : native_number m ≡ j = eq_same (native_number m) j two.0 in
    let z : j ≡ j + 0 = omega arith in ap native_number (sym same) ∙ e ∙ z
place_number (m ∷ ns) j (suc k) n h g =
    let two = and_both (nat_eq (native_number m) j) (numbered (suc j) ns) h in
    let z : suc j + k ≡ j + suc k = omega arith in place_number ns (suc j) k n two.1 g ∙ z

there : (n : Native) → native_at (native_number n) ≡ Some n
unfolding native_number native_at
{"".join(f"there natives.{camel(n.name)} = refl{chr(10)}" for n in ALL)}
-- a number is that of a function exactly where the function's number is this one
pub by_number : (number : ℕ) (native : Native) → (native_at number ≡ Some native) ↔ (native_number native ≡ number)
unfolding native_at
by_number number native =
    let z : 0 + number ≡ number = omega arith in
    (λ g. place_number NATIVES 0 number native in_order g ∙ z, λ e. ap native_at (sym e) ∙ there native)

short_found : (short : ShortName) → named (short_spelling short) ≡ Some (native_of_short short)
unfolding named native_named short_named native_spelling short_spelling
{"".join(f"short_found shorts.{camel(n.short)} = refl{chr(10)}" for n in ALL if n.short)}
meant : (us : List ℕ) (n : Native) (a : Option Native) → native_named us ≡ a → (s : Option ShortName) → short_named us ≡ s → either_name a (of_short s) ≡ Some n → IsNameOf n us
meant us n (Some m) e s f h = inl ((by_spelling us n).0 (e ∙ h))
meant us n None e (Some s) f h = inr (s, (short_by_spelling us s).0 f, (let q : native_of_short s ≡ n = cc in q))
meant us n None e None f h = absurd (let q : ◌≡◌ {{A = Option Native}} None (Some n) = h in cc)

names : (us : List ℕ) (n : Native) → IsNameOf n us → named us ≡ Some n
unfolding named
names us n (inl e) = ap (λ (o : Option Native). either_name o (of_short (short_named us))) ((by_spelling us n).1 e)
names us n (inr x) = ap named x.1 ∙ short_found x.0 ∙ ap Some x.2

-- a text means a function exactly where it is one of its names
pub by_name : (us : List ℕ) (n : Native) → (named us ≡ Some n) ↔ IsNameOf n us
unfolding named
by_name us n = (meant us n (native_named us) refl (short_named us) refl, names us n)
""")
    write("proofs/native/natives_by_number/Answers.antt", """use Rattle.natives.proofs.Numbers.{by_number}
use Rattle.natives.proofs.native.natives_by_number.Goals as goal

pub returns : goal.returns
returns c = by_number
""")
    write("proofs/short_name/named_by_spelling/Answers.antt", """use Rattle.natives.proofs.Numbers.{by_name}
use Rattle.natives.proofs.short_name.named_by_spelling.Goals as goal

pub returns : goal.returns
returns c = by_name
""")


numbers_proof()


# ---- signatures


def signatures():
    write("specs/Signatures.antt", f"""-- What the native functions take and give (MQL5 Reference; the chapters stand below). One line is one
-- function: where it is answered, its result, its parameters in order, and what it may set the last error to.
use Rattle.std.specs.Prelude.{{ℕ, ◌+◌, ℤ, pos, negsuc, Bool, true, false, List, [], ◌∷◌, Some, None, is_some}}
use Rattle.fx8.specs.declared.int_kind.IntKind.TheVariants as kind
use Rattle.natives.specs.declared.types.SimpleType.{{SimpleType}}
use Rattle.natives.specs.declared.types.SimpleType.TheVariants as simple
use Rattle.natives.specs.declared.types.Structure.TheVariants.{{{", ".join(sorted(NAMES))}}}
use Rattle.natives.specs.declared.types.Structure.{{Structure}}
use Rattle.natives.specs.declared.signature.Elements.{{Elements}}
use Rattle.natives.specs.declared.signature.Elements.TheVariants as elements
use Rattle.natives.specs.declared.signature.ParameterKind.{{ParameterKind}}
use Rattle.natives.specs.declared.signature.ParameterKind.TheVariants as parameter
use Rattle.natives.specs.declared.signature.Passing.{{Passing}}
use Rattle.natives.specs.declared.signature.Passing.TheVariants.{{Value, Reference}}
use Rattle.natives.specs.declared.signature.Parameter.{{Parameter}}
use Rattle.natives.specs.declared.signature.ResultType.{{ResultType}}
use Rattle.natives.specs.declared.signature.ResultType.TheVariants as results
use Rattle.natives.specs.declared.signature.Evaluation.{{Evaluation}}
use Rattle.natives.specs.declared.signature.Evaluation.TheVariants as evaluation
use Rattle.natives.specs.declared.signature.LastError.{{LastError}}
use Rattle.natives.specs.declared.signature.LastError.TheVariants as errors
use Rattle.natives.specs.declared.native.Native.{{Native}}
use Rattle.natives.specs.declared.native.Native.TheVariants as natives

-- what a native function takes and gives
pub record Signature : Type 0 where
  pub answered : Evaluation
  pub result : ResultType
  pub parameters : List Parameter
  pub may_set : List LastError

-- the types
{"".join(f"abbrev {k} : SimpleType{chr(10)}{k} = simple.Integer kind.{k.capitalize()}{chr(10)}{chr(10)}" for k in ("bool", "uchar", "ushort", "int", "long", "ulong", "datetime"))}abbrev double : SimpleType
double = simple.Double

abbrev string : SimpleType
string = simple.String

-- a parameter that is read, and one that the function may change
abbrev read : ParameterKind → Parameter
read k = record {{ kind = k; passing = Value; default = None }}

abbrev changed_kind : ParameterKind → Parameter
changed_kind k = record {{ kind = k; passing = Reference; default = None }}

-- a value of a type, one that may be left out, and a variable of a type that the function may change
abbrev value : SimpleType → Parameter
value t = read (parameter.Simple t)

abbrev optional : SimpleType → ℤ → Parameter
optional t n = record {{ kind = parameter.Simple t; passing = Value; default = Some n }}

abbrev changed : SimpleType → Parameter
changed t = changed_kind (parameter.Simple t)

-- structures and arrays
abbrev structure : Structure → Parameter
structure s = read (parameter.Structure s)

abbrev changed_structure : Structure → Parameter
changed_structure s = changed_kind (parameter.Structure s)

abbrev array : Elements → Parameter
array e = read (parameter.Array e)

abbrev changed_array : Elements → Parameter
changed_array e = changed_kind (parameter.Array e)

-- elements: of any type, of numbers, of the type of the array before or also numbers, of this type
abbrev any : Elements
any = elements.Any

abbrev numbers : Elements
numbers = elements.Numbers

abbrev matching : Elements
matching = elements.Matching

abbrev of : SimpleType → Elements
of t = elements.Simple t

abbrev structures : Structure → Elements
structures s = elements.Structures s

-- a number of the elements' type, one of the common type, and what is no number
abbrev number : Parameter
number = read parameter.Number

abbrev common : Parameter
common = read parameter.Common

abbrev enumeration : Parameter
enumeration = read parameter.Enumeration

abbrev object : Parameter
object = read parameter.Object

abbrev pointer : Parameter
pointer = read parameter.Pointer

abbrev changed_variable : Parameter
changed_variable = changed_kind parameter.Variable

-- any number of values
abbrev rest : Parameter
rest = read parameter.Rest

-- results
abbrev nothing : ResultType
nothing = results.Void

abbrev a : SimpleType → ResultType
a t = results.Simple t

abbrev common_number : ResultType
common_number = results.Common

abbrev to_object : ResultType
to_object = results.Pointer

-- last errors
{"".join(f"abbrev {k} : LastError{chr(10)}{k} = errors.{v}{chr(10)}{chr(10)}" for k, v in ERRORS.items())}-- functions by where they are answered: by their arguments alone, by the store, by the compiler, by the world
abbrev answered_by : Evaluation → ResultType → List Parameter → List LastError → Signature
answered_by e r ps es = record {{ answered = e; result = r; parameters = ps; may_set = es }}

abbrev pure : ResultType → List Parameter → List LastError → Signature
pure = answered_by evaluation.Pure

abbrev by_store : ResultType → List Parameter → List LastError → Signature
by_store = answered_by evaluation.Store

abbrev by_compiler : ResultType → List Parameter → List LastError → Signature
by_compiler = answered_by evaluation.Compiler

abbrev by_world : ResultType → List Parameter → List LastError → Signature
by_world = answered_by evaluation.World

-- each function
unfoldable pub signature : Native → Signature
{signature_lines()}
-- the number that the last error is set to (MQL5 Reference, Codes of Errors and Warnings, Runtime Errors)
unfoldable pub error_number : LastError → ℕ
{"".join(f"error_number errors.{ERRORS[k]} = {n}{chr(10)}" for k, n in ERROR_NUMBERS.items())}
-- a parameter must have an argument: it has no default and is not the last, of any number of values
abbrev pub is_rest : ParameterKind → Bool
is_rest parameter.Rest = true
is_rest _ = false

abbrev pub may_lack : Parameter → Bool
may_lack p = elim (is_rest p.kind) [ true ↦ true | false ↦ is_some p.default ]

-- the least number of arguments
unfoldable pub least_arguments : List Parameter → ℕ
least_arguments [] = 0
least_arguments (p ∷ ps) = elim (may_lack p) [ true ↦ least_arguments ps | false ↦ 1 + least_arguments ps ]

-- any number of arguments may follow the others
unfoldable pub takes_more : List Parameter → Bool
takes_more [] = false
takes_more (p ∷ ps) = elim (is_rest p.kind) [ true ↦ true | false ↦ takes_more ps ]
""")
    words = {}
    for n in ALL:
        for k, _, d in n.parameters:
            words[parameter_word(k, d)] = rust_parameter(k, d)
    consts = "".join(f"const {w}: Parameter = {r};{chr(10)}" for w, r in sorted(words.items()))
    answered = {"pure": "Pure", "store": "Store", "compiler": "Compiler", "world": "World"}
    write("src/signatures.rt", f"""//! The table of signatures.
ghost use Rattle.std.specs.Prelude.{{◌≡◌, ◌≤◌, length}};
ghost use Rattle.natives.specs.Signatures.{{signature, least_arguments, takes_more}};

use crate::native::Native;
use crate::signature::{{
    Elements, Evaluation, LastError, Parameter, ParameterKind, Passing, ResultType,
}};
use crate::types::{{SimpleType, Structure}};
use fx8::IntKind;

{consts}
/// The least number of arguments for some parameters.
#[tactic(auto, unfolding(crate::specs::Signatures::least_arguments))]
fn least_of(parameters: &[Parameter]) -> usize
    ensures value {{ result ≡ least_arguments parameters.now }}
    ensures at_most {{ result ≤ length parameters.now }}
{{
    match parameters {{
        [] => 0,
        [parameter, others @ ..] => {{
            if parameter.may_lack() {{
                least_of(others)
            }} else {{
                1 + least_of(others)
            }}
        }}
    }}
}}

/// Whether one of some parameters takes any number of values.
#[tactic(auto, unfolding(crate::specs::Signatures::takes_more))]
fn more_of(parameters: &[Parameter]) -> bool
    ensures {{ result ≡ takes_more parameters.now }}
{{
    match parameters {{
        [] => false,
        [parameter, others @ ..] => parameter.kind.is_rest() || more_of(others),
    }}
}}

impl Native {{
    /// Where a call is answered.
    #[tactic(auto, unfolding(crate::specs::Signatures::signature))]
    pub fn evaluation(self) -> Evaluation
        ensures {{ result ≡ (signature self).answered }}
    {{
        match self {{
{arms([(n.name, "Evaluation::" + answered[n.answered]) for n in ALL])}        }}
    }}

    /// What it gives.
    #[tactic(auto, unfolding(crate::specs::Signatures::signature))]
    pub fn result(self) -> ResultType
        ensures {{ result ≡ (signature self).result }}
    {{
        match self {{
{arms([(n.name, rust_result(n.result)) for n in ALL])}        }}
    }}

    /// Its parameters, in order.
    #[tactic(auto, unfolding(crate::specs::Signatures::signature))]
    pub fn parameters(self) -> &'static [Parameter]
        ensures {{ result.now ≡ (signature self).parameters }}
    {{
        match self {{
{arms([(n.name, "&[" + ", ".join(parameter_word(k, d) for k, _, d in n.parameters) + "]") for n in ALL])}        }}
    }}

    /// What it may set the last error to where it fails.
    #[tactic(auto, unfolding(crate::specs::Signatures::signature))]
    pub fn last_errors(self) -> &'static [LastError]
        ensures {{ result.now ≡ (signature self).may_set }}
    {{
        match self {{
{arms([(n.name, "&[" + ", ".join("LastError::" + ERRORS[e] for e in n.errors) + "]") for n in ALL])}        }}
    }}

    /// The least number of arguments.
    pub fn least_arguments(self) -> usize
        ensures {{ result ≡ least_arguments (signature self).parameters }}
    {{
        least_of(self.parameters())
    }}

    /// Whether any number of arguments may follow; else no more may come than there are parameters.
    pub fn takes_more(self) -> bool
        ensures {{ result ≡ takes_more (signature self).parameters }}
    {{
        more_of(self.parameters())
    }}
}}
""")


def parameter_word(kind, default):
    text = spec_parameter(kind, default).replace("(negsuc 0)", "or_minus_1")
    text = re.sub(r"[(]pos (\d+)[)]", r"or_\1", text).replace("value ", "")
    return re.sub(r"\W+", "_", text).strip("_").upper()


def arms(pairs):
    return "".join(f"            Native::{camel(name)} => {value},\n" for name, value in pairs)


def signature_lines():
    out, said = [], None
    for n in ALL:
        if n.chapter != said:
            out.append(f"-- {n.chapter}\n")
            said = n.chapter
        text = f"signature natives.{camel(n.name)} = {signature(n)}"
        if len(text) > 110:
            text = f"signature natives.{camel(n.name)} =\n    {signature(n)}"
        if len(text.split("\n")[-1]) > 110:
            head, rest, errors = re.fullmatch(r"(\w+ \S+ \S+) (.*) (\(.*?\)|\[\])", signature(n)).groups()
            if len(rest) > 106:
                cut = rest.rindex("∷", 0, 100)
                rest = f"{rest[:cut + 1]}\n        {rest[cut + 2:]}"
            text = f"signature natives.{camel(n.name)} =\n    {head}\n    {rest}\n    {errors}"
        out.append(text + "\n")
    return "".join(out)


signatures()


# ---- constants, supplied types, fields and predefined names


def constant_rows():
    """Variant, spelling, comment, type and value of each constant."""
    said = None
    for line in CONSTANTS.strip().split("\n"):
        if line.startswith("# "):
            said = line[2:]
            continue
        prefix, *rest = line.split(" ")
        for k, word in enumerate(rest):
            name, _, value = word.partition("=")
            yield camel(prefix + name), prefix + name, said, "int", int(value) if value else k
    for line in TYPED.strip().split("\n"):
        name, kind, value = line.split(" ")
        red, *others = map(int, value.split(","))
        value = red + 256 * others[0] + 65536 * others[1] if others else red
        yield camel(name), name, "Web Colors" if kind == "color" else "Numerical Type Constants; Other Constants", kind, value


ROWS = list(constant_rows())
FIELDS = [(s, [tuple(f.split(" ")) for f in fs.split(", ")]) for s, fs in
          (line.split(": ") for line in STRUCTURES.strip().split("\n"))]
FIELD_NAMES = list(dict.fromkeys(name for _, fs in FIELDS for _, name in fs))
CONSTANT = Spelled("Constant", "constant", "Constants", [r[:3] for r in ROWS],
                   "/// A named constant (MQL5 Reference, Standard Constants, Enumerations and Structures).",
                   "A text is a constant's name exactly where it is that constant's spelling.",
                   "Clone, Copy, PartialEq, Eq")
FIELD = Spelled("FieldName", "field", "Structures", [(camel(f), f, "Standard Constants, Enumerations and Structures") for f in FIELD_NAMES],
                "/// The name of a field of a supplied structure.",
                "A text is a field's name exactly where it is that name's spelling.")
SUPPLIED = Spelled("SuppliedType", "supplied", "Structures",
                   [(s, s, "structures") for s, _ in FIELDS]
                   + [(camel(e), e, "other names of `int`") for e in NAMES_OF_INT.split()],
                   "/// A supplied type: a structure, or another name of `int`.",
                   "A text is a supplied type's name exactly where it is that type's spelling.", inside=f"""
    /// The structure that it is; another name of `int` is none.
    pub fn structure(self) -> Option<Structure>
        ensures {{ result ≡ structure_of self }}
    {{
        match self {{
{"".join(f"            SuppliedType::{s} => Some(Structure::{s}),{chr(10)}" for s, _ in FIELDS)}            _ => None,
        }}
    }}
""")
GIVEN = [tuple(p.split(" ")) for p in PREDEFINED.split(", ")]
PREDEFINEDS = Spelled("Predefined", "predefined", "Structures",
                      [(camel(p), p, "Predefined Variables; Macro Substitution") for _, p in GIVEN],
                      "/// A predefined name (MQL5 Reference, Predefined Variables; Predefined Macro Substitutions).",
                      "A text is a predefined name exactly where it is that name's spelling.", inside=f"""
    /// The type of its value.
    pub fn kind(self) -> SimpleType
        ensures {{ result ≡ predefined_kind self }}
    {{
        match self {{
{"".join(f"            Predefined::{camel(p)} => {rust_simple(k)},{chr(10)}" for k, p in GIVEN)}        }}
    }}
""")


def spec_simple(t):
    return {"double": "simple.Double", "string": "simple.String"}.get(t) or f"(simple.Integer kind.{t.capitalize()})"


def constants():
    values = {v: f"ConstantValue::Double(Fix8::of_units({n}))" if kind == "double" else
              f"ConstantValue::Integer(IntKind::{kind.capitalize()}, {n})" for v, _, _, kind, n in ROWS}
    arms = "".join(f"            Constant::{v} => {value},\n" for v, value in values.items())
    CONSTANT.inside = f"""
    /// Its value.
    #[tactic(auto, unfolding(crate::specs::Constants::constant_value))]
    pub fn value(self) -> ConstantValue
        ensures {{ result ≡ constant_value self }}
    {{
        match self {{
{arms}        }}
    }}
"""
    write("src/constant.rt", f"""//! The named constants and their values.
ghost use Rattle.std.specs.Prelude.{{◌≡◌, ◌↔◌, ℕ, List, Some}};
ghost use Rattle.natives.specs.declared.constant.Constant as constants;
ghost use Rattle.natives.specs.Constants.{{constant_spelling, constant_named, constant_value}};
ghost use Rattle.mql_spelling.specs.Spelled.{{spelled_among}};

use crate::types::ConstantValue;
use fx8::{{Fix8, IntKind}};
use mql_spelling::is_spelled;

{CONSTANT.rust()}""")
    clauses, said = [], None
    for v, s, comment, kind, n in ROWS:
        if comment != said:
            clauses.append(f"-- {comment}\n")
            said = comment
        value = f"double {whole(n)}" if kind == "double" else f"{kind} {whole(n)}"
        clauses.append(f"constant_value constants.{v} = {value}\n")
    kinds = "".join(f"""abbrev {k} : ℤ → ConstantValue
{k} = constant.Integer kind.{k.capitalize()}

""" for k in ("int", "uint", "long", "ulong", "color"))
    write("specs/Constants.antt", f"""-- The named constants (MQL5 Reference, Standard Constants, Enumerations and Structures; the chapters stand
-- below). The numbers of the properties of accounts, symbols, positions, orders, deals and statistics are
-- their places in the lists (own).
use Rattle.std.specs.Prelude.{{ℕ, ℤ, pos, negsuc, List, codes, Option}}
use Rattle.fx8.specs.declared.int_kind.IntKind.TheVariants as kind
use Rattle.natives.specs.declared.types.ConstantValue.{{ConstantValue}}
use Rattle.natives.specs.declared.types.ConstantValue.TheVariants as constant
{CONSTANT.heads("constant")}use Rattle.mql_spelling.specs.Spelled.{{spelled_among}}

{CONSTANT.clauses()}
-- values by their types; a double is told by its count of 10^-8
{kinds}abbrev double : ℤ → ConstantValue
double = constant.Double

-- the value of a constant; a color is red + 256 green + 65536 blue
unfoldable pub constant_value : Constant → ConstantValue
{"".join(clauses)}""")
    CONSTANT.proofs("constant", "ConstantNames")


def types():
    rust_fields = "".join(f"            Structure::{s} => fields! {{\n" + "".join(
        f"                {camel(n)}: {k.upper()};\n" for k, n in fs) + "            },\n" for s, fs in FIELDS)
    used = dict.fromkeys(k for _, fs in FIELDS for k, _ in fs)
    rust_kinds = "".join(f"const {k.upper()}: SimpleType = {rust_simple(k)};\n" for k in used)
    write("src/supplied.rt", f"""//! The supplied types.
ghost use Rattle.std.specs.Prelude.{{◌≡◌, ◌↔◌, ℕ, List, Some}};
ghost use Rattle.natives.specs.declared.supplied.SuppliedType as supplieds;
ghost use Rattle.natives.specs.Structures.{{supplied_spelling, supplied_named, structure_of}};
ghost use Rattle.mql_spelling.specs.Spelled.{{spelled_among}};

use crate::types::Structure;
use mql_spelling::is_spelled;

{SUPPLIED.rust()}""")
    write("src/predefined.rt", f"""//! The predefined names.
ghost use Rattle.std.specs.Prelude.{{◌≡◌, ◌↔◌, ℕ, List, Some}};
ghost use Rattle.natives.specs.declared.predefined.Predefined as predefineds;
ghost use Rattle.natives.specs.Structures.{{predefined_spelling, predefined_named, predefined_kind}};
ghost use Rattle.mql_spelling.specs.Spelled.{{spelled_among}};

use crate::types::SimpleType;
use fx8::IntKind;
use mql_spelling::is_spelled;

{PREDEFINEDS.rust()}""")
    write("src/field.rt", f"""//! The fields of the supplied structures.
ghost use Rattle.std.specs.Prelude.{{◌≡◌, ◌↔◌, ℕ, List, Some}};
ghost use Rattle.natives.specs.declared.field.FieldName as fields;
ghost use Rattle.natives.specs.declared.types.Structure.{{Structure as structures}};
ghost use Rattle.natives.specs.declared.types.SimpleType.{{SimpleType as types}};
ghost use Rattle.natives.specs.Structures.{{field_spelling, field_named, fields_of, field_kind, HasField}};
ghost use Rattle.mql_spelling.specs.Spelled.{{spelled_among}};

use crate::types::{{SimpleType, Structure}};
use fx8::IntKind;
use mql_spelling::is_spelled;

{FIELD.rust()}
/// A field of a structure.
#[derive(Clone, Copy, Debug, PartialEq, Eq)]
pub struct Field {{
    /// Its name.
    pub name: FieldName,
    /// Its type.
    pub kind: SimpleType,
}}

{rust_kinds}
/// Fields, each with its type.
macro_rules! fields {{
    ($($name:ident: $kind:expr;)*) => {{
        &[$(Field {{ name: FieldName::$name, kind: $kind }}),*]
    }};
}}

/// The type of the first of some fields that has this name.
fn kind_in(fields: &[Field], units: &[u16]) -> Option<SimpleType>
    ensures {{ result ≡ field_kind fields.now units.now }}
{{
    match fields {{
        [] => None,
        [field, others @ ..] => {{
            if is_spelled(units, field.name.spelling()) {{
                Some(field.kind)
            }} else {{
                kind_in(others, units)
            }}
        }}
    }}
}}

impl Structure {{
    /// Its fields, in order.
    #[tactic(auto, unfolding(crate::specs::Structures::fields_of))]
    pub fn fields(self) -> &'static [Field]
        ensures {{ result.now ≡ fields_of self }}
    {{
        match self {{
{rust_fields}        }}
    }}

    /// The type of its field of a name, if it has one.
    pub fn field(self, units: &[u16]) -> Option<SimpleType>
        ensures {{ result ≡ field_kind (fields_of self) units.now }}
    {{
        kind_in(self.fields(), units)
    }}
}}

/// A structure's field of a name has a type exactly where one of its fields has this name and this type.
pub fn structures_have_fields()
    ensures {{ (structure : structures) (units : List ℕ) (kind : types) →
        (field_kind (fields_of structure) units ≡ Some kind) ↔ HasField (fields_of structure) units kind }}
{{}}
""")
    lists = ""
    for s, fs in FIELDS:
        lists += f"fields_of structures.{s} =\n"
        lists += "".join(f"    a_field fields.{camel(n)} {spec_simple(k)} ∷\n" for k, n in fs) + "    []\n"
    write("specs/Structures.antt", f"""-- The supplied types with their fields, and the predefined names (MQL5 Reference, Standard Constants,
-- Enumerations and Structures; Predefined Variables; Predefined Macro Substitutions).
use Rattle.std.specs.Prelude.{{◌≡◌, ℕ, List, [], ◌∷◌, codes, Option, Some, None, slice_get, bytes_eq, if◌then◌else◌}}
use Rattle.fx8.specs.declared.int_kind.IntKind.TheVariants as kind
use Rattle.natives.specs.declared.types.SimpleType.{{SimpleType}}
use Rattle.natives.specs.declared.types.SimpleType.TheVariants as simple
use Rattle.natives.specs.declared.types.Structure.{{Structure}}
use Rattle.natives.specs.declared.types.Structure.TheVariants as structures
use Rattle.natives.specs.declared.field.Field.{{Field}}
{FIELD.heads("field")}{SUPPLIED.heads("supplied")}{PREDEFINEDS.heads("predefined")}use Rattle.mql_spelling.specs.Spelled.{{spelled_among}}

{SUPPLIED.clauses()}
-- the structure that a supplied type is; another name of `int` is none
abbrev pub structure_of : SuppliedType → Option Structure
{"".join(f"structure_of supplieds.{s} = Some structures.{s}{chr(10)}" for s, _ in FIELDS)}structure_of _ = None

{FIELD.clauses()}
-- a field by its name and type
abbrev a_field : FieldName → SimpleType → Field
a_field n k = record {{ name = n; kind = k }}

-- the fields of a structure, in order
unfoldable pub fields_of : Structure → List Field
{lists}
-- the type of the first of some fields that has a name
abbrev pub field_kind : List Field → List ℕ → Option SimpleType
field_kind [] us = None
field_kind (f ∷ fs) us = if bytes_eq us (field_spelling f.name) then Some f.kind else field_kind fs us

-- some fields have one of this name and type
pub record HasField (fs : List Field) (us : List ℕ) (k : SimpleType) : Type 0 where
  pub place : ℕ
  pub field : Field
  pub there : slice_get fs place ≡ Some field
  pub spelled : us ≡ field_spelling field.name
  pub typed : field.kind ≡ k

{PREDEFINEDS.clauses()}
-- the type of the value of a predefined name
abbrev pub predefined_kind : Predefined → SimpleType
{"".join(f"predefined_kind predefineds.{camel(p)} = {spec_simple(k)}{chr(10)}" for k, p in GIVEN)}""")
    write("proofs/StructureFields.antt", """-- The field of a name, of a structure whose fields have different names.
use Rattle.std.proofs.Common.{◌≡◌, ℕ, zero, suc, Bool, true, false, cond, not, ◌&&◌, List, [], ◌∷◌, Option, Some, None, is_some, slice_get, refl, ap, ◌∙◌, sym, ◌↔◌, bytes_eq}
use Rattle.std.proofs.lemmas.Slice.Eq.{bytes_eq-Decides}
use Rattle.natives.specs.declared.types.SimpleType.{SimpleType}
use Rattle.natives.specs.declared.types.Structure.{Structure}
use Rattle.natives.specs.declared.types.Structure.TheVariants as structures
use Rattle.natives.specs.declared.field.Field.{Field}
use Rattle.natives.specs.Structures.{field_spelling, fields_of, field_kind, HasField}

told : (fs : List Field) (us : List ℕ) (k : SimpleType) → field_kind fs us ≡ Some k → HasField fs us k
told [] us k h = absurd (let q : ◌≡◌ {A = Option SimpleType} None (Some k) = h in cc)
told (f ∷ fs) us k h =
    (elim (bytes_eq us (field_spelling f.name)) as (λ (v : Bool). bytes_eq us (field_spelling f.name) ≡ v → cond v (Some f.kind) (field_kind fs us) ≡ Some k → HasField (f ∷ fs) us k) [
      | true ↦ λ e g. record { place = 0; field = f; there = refl; spelled = (bytes_eq-Decides us (field_spelling f.name)).0 e; typed = (let q : f.kind ≡ k = cc in q) }
      | false ↦ λ e g. let r = told fs us k g in record { place = suc r.place; field = r.field; there = r.there; spelled = r.spelled; typed = r.typed }
    ]) refl h

-- the names of some fields differ
abbrev differ : List Field → Bool
differ [] = true
differ (f ∷ fs) = not (is_some (field_kind fs (field_spelling f.name))) && differ fs

alone : (structure : Structure) → differ (fields_of structure) ≡ true
unfolding fields_of field_spelling
alone structures.MqlTradeRequest = refl
alone structures.MqlTradeResult = refl
alone structures.MqlTick = refl
alone structures.MqlRates = refl
alone structures.MqlDateTime = refl

and_both : (a b : Bool) → (a && b) ≡ true → (a ≡ true) × (b ≡ true)
and_both true b h = (refl, h)
and_both false b h = absurd (let q : false ≡ true = h in cc)

tells : (fs : List Field) (p : ℕ) (f : Field) (us : List ℕ) → differ fs ≡ true → slice_get fs p ≡ Some f → us ≡ field_spelling f.name → field_kind fs us ≡ Some f.kind
tells [] p f us d h e = absurd (let q : ◌≡◌ {A = Option Field} None (Some f) = h in cc)
tells (g ∷ fs) zero f us d h e =
    let same : g ≡ f = cc in
    let is = (bytes_eq-Decides us (field_spelling g.name)).1 (e ∙ ap (λ (x : Field). field_spelling x.name) (sym same)) in
    ap (λ (b : Bool). cond b (Some g.kind) (field_kind fs us)) is ∙ ap (λ (x : Field). Some x.kind) same
tells (g ∷ fs) (suc p) f us d h e =
    let two = and_both (not (is_some (field_kind fs (field_spelling g.name)))) (differ fs) d in
    let r = tells fs p f us two.1 h e in
    (elim (bytes_eq us (field_spelling g.name)) as (λ (v : Bool). bytes_eq us (field_spelling g.name) ≡ v → cond v (Some g.kind) (field_kind fs us) ≡ Some f.kind) [
      | true ↦ λ b.
          let x : field_kind fs (field_spelling g.name) ≡ Some f.kind = ap (field_kind fs) (sym ((bytes_eq-Decides us (field_spelling g.name)).0 b)) ∙ r in
          let y : false ≡ true = ap (λ (o : Option SimpleType). not (is_some o)) (sym x) ∙ two.0 in absurd (let q : false ≡ true = y in cc)
      | false ↦ λ b. r
    ]) refl

-- a structure's field of a name has a type exactly where one of its fields has this name and this type
pub by_field : (s : Structure) (us : List ℕ) (k : SimpleType) → (field_kind (fields_of s) us ≡ Some k) ↔ HasField (fields_of s) us k
by_field s us k = (told (fields_of s) us k, λ r. tells (fields_of s) r.place r.field us (alone s) r.there r.spelled ∙ ap Some r.typed)
""")
    write("proofs/field/structures_have_fields/Answers.antt", """use Rattle.natives.proofs.StructureFields.{by_field}
use Rattle.natives.proofs.field.structures_have_fields.Goals as goal

pub returns : goal.returns
returns c = by_field
""")
    FIELD.proofs("field", "FieldNames")
    SUPPLIED.proofs("supplied", "SuppliedNames")
    PREDEFINEDS.proofs("predefined", "PredefinedNames")


def measures():
    for module, name, over in (("field", "kind_in", "fields"), ("signatures", "least_of", "parameters"), ("signatures", "more_of", "parameters")):
        write(f"proofs/{module}/+{name}/Invariants.antt", f"""use Rattle.std.proofs.Common.{{length}}
use Rattle.natives.proofs.{module}.+{name}.Given as goal

abbrev pub decreases-{name} : goal.decreases-{name}
decreases-{name} l = length l.{over}.now
""")


constants()
types()
measures()


# ---- the chapter for authors of experts


def document():
    out = ["""# Native functions, supplied types and constants

What the language supplies to an expert, after the MQL5 Reference. `check` does not judge these names yet, and of the functions `quick` runs
`Print` alone. `crates/natives` has the tables. This file is written by `tools/native_tables.py`.

- `T name` is a value that is taken into the type T; `T name=d` may be left out; `T& name` is a variable of exactly this type, which the
  function may change; `T[]` is an array, `any[]` of any type, `number[]` of any type of numbers, `like[]` of the type of the array
  before it, or of numbers where that one is of numbers.
- `common` is a number: where all arguments are integers they are taken into their common type, which is the result's, else into
  `double`. `number` is taken into the type of the array's elements. `enum` is a value of an enumeration, `object` an object, `pointer` a
  pointer, `variable&` a variable of any type but a class. `...` is any number of numbers, values of enumerations and strings.
- `true` as a default is 1, a blank 32.
- "Last error" lists the numbers to which a call that fails may set it: 4003 an argument out of range, 4301 no such symbol, 4401 too few
  bars, 4753 no position selected, or it has gone, 4754 no order, 4755 no deal, 4756 the request is refused, 4807 no such indicator.
  `ResetLastError` sets it to 0.

## Functions

They are numbered from 0 in this order.
"""]
    said = None
    for k, n in enumerate(ALL):
        if n.chapter != said:
            said = n.chapter
            out.append(f"\n### {said}\n\n| Number | Function | Last error |\n|---|---|---|\n")
        short = f", short `{n.short}`" if n.short else ""
        numbers = ", ".join(str(ERROR_NUMBERS[e]) for e in n.errors)
        out.append(f"| {k} | `{n.result} {n.name}({n.inside})`{short} | {numbers} |\n")
    out.append("\n## Structures\n\n")
    for s, fs in FIELDS:
        out.append(f"- `{s}`: " + ", ".join(f"`{k} {n}`" for k, n in fs) + "\n")
    out.append("\nOther names of `int` are " + ", ".join(f"`{e}`" for e in NAMES_OF_INT.split()) + ".\n")
    out.append("\n## Predefined names\n\n" + ", ".join(f"`{k} {n}`" for k, n in GIVEN) + ".\n")
    out.append("\n## Constants\n\nThey are of type `int` where no other type stands; a color is red + 256 green + 65536 blue.\n")
    said = None
    for v, name, comment, kind, value in ROWS:
        if comment != said:
            said = comment
            out.append(f"\n- {said}: ")
        else:
            out.append(", ")
        shown = "92233720368.54775807" if kind == "double" else value
        out.append(f"{'' if kind == 'int' else kind + ' '}`{name}` {shown}")
    (ROOT / "docs" / "natives.md").write_text("".join(out) + "\n", encoding="utf-8")


document()
