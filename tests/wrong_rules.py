"""Wrong rules for a member's bytes and for the book, each of which the test that compares has to tell from the right ones.
Not a test: tests import it. A wrong rule is a text of one of their modules, standing there once, that is another one."""
import sys
import types
from typing import NamedTuple
from unittest import mock

from checks import with_another
from gikvand import fix
from oracle import book_rules, order_rules, session_rules

FILES = {it.__name__: str(it.__file__) for it in (fix, order_rules, book_rules, session_rules)}  # Each stands on those before it.


class Wrong(NamedTuple):
    """What is another text, and in which file."""
    file: str
    old: str
    new: str

    def rules(self) -> dict[str, types.ModuleType]:
        """The modules of the rules with this wrong one, by their names."""
        found: dict[str, types.ModuleType] = {}
        for name, path in FILES.items():
            found[name] = types.ModuleType(name)
            with open(path, encoding="utf-8") as file, mock.patch.dict(sys.modules, found):
                exec(compile(self.put(name, file.read()), path, "exec"), vars(found[name]))
        return found

    def put(self, name: str, text: str) -> str:
        """The text of a module with the other one in its place."""
        return with_another(text, self.old, self.new, name) if name == self.file else text


def of_frame(old: str, new: str) -> Wrong:
    return Wrong("gikvand.fix", old, new)


def of_order(old: str, new: str) -> Wrong:
    return Wrong("oracle.order_rules", old, new)


def of_session(old: str, new: str) -> Wrong:
    return Wrong("oracle.session_rules", old, new)


def of_book(old: str, new: str) -> Wrong:
    return Wrong("oracle.book_rules", old, new)


BYTES = {
    "tags of six digits": of_frame("[1-9][0-9]{0,4}", "[1-9][0-9]{0,5}"),
    "tags of four digits at most": of_frame("[1-9][0-9]{0,4}", "[1-9][0-9]{0,3}"),
    "tags with a leading zero": of_frame("[1-9][0-9]{0,4}", "[0-9]{1,5}"),
    "numbers with leading zeros": of_frame('rb"0|[1-9][0-9]*"', 'rb"[0-9]+"'),
    "numbers with a sign": of_frame('rb"0|[1-9][0-9]*"', 'rb"[+-]?(?:0|[1-9][0-9]*)"'),
    "times of any digits' form": of_frame('rb"[0-9]{8}-[0-9]{2}', 'rb".{8}.[0-9]{2}'),
    "times with milliseconds": of_frame(':[0-9]{2}")\nBEGIN', ':[0-9]{2}(?:[.][0-9]{3})?")\nBEGIN'),
    "symbols of nine bytes": of_order("[A-Z0-9]{1,8}", "[A-Z0-9]{1,9}"),
    "symbols of seven bytes at most": of_order("[A-Z0-9]{1,8}", "[A-Z0-9]{1,7}"),
    "symbols of small letters": of_order("[A-Z0-9]{1,8}", "[A-Za-z0-9]{1,8}"),
    "symbols without digits": of_order("[A-Z0-9]{1,8}", "[A-Z]{1,8}"),
    "another version": of_frame('b"8=FIX.4.4\\x01"\nHEAD', 'b"8=FIX.4.2\\x01"\nHEAD'),
    "no time that isn't zeros": of_session("00000000-00:00:00", "00000000-00:00:01"),
    "a header in another order": of_frame("HEADER = [8, 9, 35, 49, 56, 34, 52]", "HEADER = [8, 9, 35, 34, 49, 56, 52]"),
    "a Logon with a heartbeat": of_session('(108, b"0")', '(108, b"30")'),
    "quantities of 0": of_order("UNITS = range(1,", "UNITS = range(0,"),
    "quantities above a million": of_order("range(1, 1_000_001)", "range(1, 1_000_002)"),
    "quantities below a million": of_order("range(1, 1_000_001)", "range(1, 1_000_000)"),
    "names of 0": of_order("NAMES = range(1,", "NAMES = range(0,"),
    "names of sixteen digits": of_order("range(1, 10 ** 15)", "range(1, 10 ** 15 + 1)"),
    "names below the greatest": of_order("range(1, 10 ** 15)", "range(1, 10 ** 15 - 1)"),
    "OrigClOrdIDs of any size": of_order("41: (NUMBER, NAMES)", "41: (NUMBER, None)"),
    "stop orders": of_order('40: (BYTE, (b"2",))', '40: (BYTE, (b"2", b"3"))'),
    "a third side": of_order('54: (BYTE, (b"1", b"2"))', '54: (BYTE, (b"1", b"2", b"3"))'),
    "no sells": of_order('54: (BYTE, (b"1", b"2"))', '54: (BYTE, (b"1",))'),
    "no immediate or cancel": of_order('59: (BYTE, (b"0", b"3", b"4"))', '59: (BYTE, (b"0", b"4"))'),
    "no fill or kill": of_order('59: (BYTE, (b"0", b"3", b"4"))', '59: (BYTE, (b"0", b"3"))'),
    "no day orders by name": of_order('59: (BYTE, (b"0", b"3", b"4"))', '59: (BYTE, (b"3", b"4"))'),
    "good till cancel": of_order('59: (BYTE, (b"0", b"3", b"4"))', '59: (BYTE, (b"0", b"1", b"3", b"4"))'),
    "times of any form in 60": of_order("60: (TIME, None)", "60: (re.compile(rb'.+', re.DOTALL), None)"),
    "a new order without a time": of_order('{b"D": {11, 38, 40, 44, 54, 55, 60}', '{b"D": {11, 38, 40, 44, 54, 55}'),
    "a new order without a price": of_order('{b"D": {11, 38, 40, 44, 54', '{b"D": {11, 38, 40, 54'),
    "a cancel without a quantity": of_order('b"F": {11, 38, 41, 54, 55, 60}', 'b"F": {11, 41, 54, 55, 60}'),
    "a cancel without a side": of_order('b"F": {11, 38, 41, 54, 55, 60}', 'b"F": {11, 38, 41, 55, 60}'),
    "a replace without a price": of_order('b"G": {11, 38, 40, 41, 44, 54', 'b"G": {11, 38, 40, 41, 54'),
    "a replace without OrdType": of_order('b"G": {11, 38, 40, 41, 44, 54', 'b"G": {11, 38, 41, 44, 54'),
    "a new order without terms": of_order('{b"D": {59}, b"F"', '{b"D": set(), b"F"'),
    "a cancel with terms": of_order('b"F": set(), b"G"', 'b"F": {59}, b"G"'),
    "a replace without terms": of_order('b"G": {59}}', 'b"G": set()}'),
    "a market order with a price": of_order('NEEDED[b"D"] - {44}', 'NEEDED[b"D"]'),
    "fields without a value": of_frame("or not equals or not value", "or not equals"),
    "fields of a tag alone": of_frame("or not equals or not value", "or equals and not value"),
    "another begin is a bad length": of_frame('"bad begin" if at < len(BEGIN) else "bad length"', '"bad length"'),
    "another 9= is a bad begin": of_frame('"bad begin" if at < len(BEGIN) else "bad length"', '"bad begin"'),
    "a length of 4": of_frame("int(data[first:at]) < 5", "int(data[first:at]) < 4"),
    "no length of 5": of_frame("int(data[first:at]) < 5", "int(data[first:at]) < 6"),
    "lengths with a leading zero": of_frame(' or at == first and byte == b"0"', ""),
    "lengths of 298": of_frame("> 297:", "> 298:"),
    "no length of 297": of_frame("> 297:", "> 296:"),
    "a length is too long at its end": of_frame('return at + 1, "too long"', "pass"),
    "a body without an end": of_frame("not rest.endswith(b\"\\x01\") or not trailer", "not trailer"),
    "a trailer of any tag": of_frame(' or not trailer.startswith(b"10=")', ""),
    "any checksum": of_frame('return "bad checksum"', "pass"),
    "sums without the byte before 10=": of_frame("(sum(rest) % 256):", "(sum(rest[:-1]) % 256):"),
    "any first field": of_frame("if found and found[0][0] == 35 else", "if found else"),
    "no fault of fields": of_frame('else "bad field"', "else None if found else 'bad field'"),
    "replaces that ask for a market": of_order('kind == b"D" and [value', "[value"),
    "twice goes last": of_order("for reason, wrong in faults if wrong",
                                "for reason, wrong in faults[1:] + faults[:1] if wrong"),
    "no fault of a tag twice": of_order("if tags.count(tag) > 1}", "if tags.count(tag) > 2}"),
    "no fault of a tag twice in the header": of_order("{tag for tag in tags if tags.count(tag) > 1}",
                                                      "{tag for tag in tags if tags.count(tag) > 1 and tag not in HEADER}"),
    "no fault of a foreign tag": of_order("(2, given - needed - ALLOWED[kind])", "(2, set())"),
    "no fault of a missing tag": of_order("(1, needed - given)", "(1, set())"),
    "a missing tag before a foreign one": of_order("              (2, given - needed - ALLOWED[kind]),\n"
                                                   "              (1, needed - given),\n",
                                                   "              (1, needed - given),\n"
                                                   "              (2, given - needed - ALLOWED[kind]),\n"),
    "no fault of a format": of_order("(6, {tag for tag, value in own if tag in formats and not",
                                     "(6, {tag for tag, value in own if tag in formats and False and not"),
    "no fault of a range": of_order("(5, {tag for tag, value in own if tag in formats and not",
                                    "(5, {tag for tag, value in own if tag in formats and False and not"),
    "the range before the format": of_order("for reason, wrong in faults if wrong",
                                            "for reason, wrong in faults[:3] + faults[:2:-1] if wrong"),
    "the greatest faulty tag": of_order("(reason, min(wrong))", "(reason, max(wrong))"),
    "a number 0 in the header": of_frame("1 <= int(told[34])", "0 <= int(told[34])"),
    "any number in the header": of_frame("NUMBER.fullmatch(told[34])", "told[34].isdigit()"),
    "greater numbers in the header": of_frame("<= 999_999_999", "<= 10 ** 12"),
    "any time in the header": of_frame("and TIME.fullmatch(told[52]))", ")"),
    "any sender": of_session('told[49] != b"C1" or ', ""),
    "any target": of_session(' or told[56] != b"VENUE"', ""),
    "any number of a message": of_session("!= self.accepted + 1:", "<= self.accepted:"),
    "the same number twice": of_session("!= self.accepted + 1:", "not in (self.accepted, self.accepted + 1):"),
    "the number before the party": of_session('if told[49] != b"C1"',
                                              'if int(told[34]) == self.accepted + 1 and told[49] != b"C1"'),
    "another time in answers": of_session("        self.time = told[52]\n        if", "        if"),
    "sessions without a Logon": of_session('not self.is_open and kind != b"A"', "False"),
    "a second Logon": of_session("if self.is_open or own != LOGON", "if own != LOGON"),
    "any Logon": of_session("if self.is_open or own != LOGON", "if self.is_open"),
    "a Logon without an answer": of_session('return self.answer("A", body("98=0|108=0|141=Y|"))', "return None"),
    "a test of any tag": of_session("or own[0][0] != 112 ", ""),
    "a test of two fields": of_session("len(own) != 1 or", "not own or"),
    "a test of 33 bytes": of_session("len(own[0][1]) > 32", "len(own[0][1]) > 33"),
    "a test of 31 bytes at most": of_session("len(own[0][1]) > 32", "len(own[0][1]) > 31"),
    "a test answered as a test": of_session('self.answer("0", b"112', 'self.answer("1", b"112'),
    "a Logout that goes on": of_session('            return self.end(None)\n', '            return self.answer("5", b"")\n'),
    "a Logout answered by a text": of_session("return self.end(None)", 'return self.end("bye")'),
    "no Rejects of members": of_session('kind in (b"0", b"3")', 'kind in (b"0",)'),
    "no Heartbeats of members": of_session('kind in (b"0", b"3")', 'kind in (b"3",)'),
    "other types passed over": of_session(' else self.end("bad type")', " else None"),
    "a fault that goes on": of_session("        self.has_ended = True\n", "        self.has_ended = text != 'bad type'\n"),
}

BOOK = {
    "4,097 orders rest": of_book("MOST_RESTING = 4096", "MOST_RESTING = 4097"),
    "4,095 orders rest": of_book("MOST_RESTING = 4096", "MOST_RESTING = 4095"),
    "an average rounded up": of_book("self.paid // self.cum if", "-(-self.paid // self.cum) if"),
    "what is left without what was filled": of_book("return self.total - self.cum", "return self.total"),
    "a fill that isn't paid": of_book("self.paid + quantity * price", "self.paid + quantity"),
    "symbols that trade with one another": of_book("self.symbol == other.symbol and self.side", "self.side"),
    "orders of one side that trade": of_book("and self.side != other.side and", "and"),
    "a market order with a limit": of_book("if self.price is None:\n            return True",
                                           "if self.price is None:\n            return price <= 1000"),
    "a buy below its price": of_book("self.price >= price if", "self.price > price if"),
    "a sell above its price": of_book("else self.price <= price", "else self.price < price"),
    "any price": of_book("return self.price >= price if", "return True if"),
    "the lowest buy first": of_book('-price if order.side == b"1"', 'price if order.side == b"1"'),
    "the greatest sell first": of_book("else price), order.stamp", "else -price), order.stamp"),
    "the newest order first": of_book("else price), order.stamp", "else price), -order.stamp"),
    "market orders in old journals": of_book("self.commands >= self.cut and", ""),
    "a Reject of another number": of_book('f"45={found[5][1].decode()}', 'f"45={found[1][1].decode()}'),
    "a Reject of another type": of_book("372={kind.decode()}", "372=D"),
    "a Reject isn't counted": of_book("        self.commands += 1\n        if fault",
                                      "        self.commands += not order_fault(kind, found, is_market)\n        if fault"),
    "outputs aren't counted": of_book("17={self.outputs + 1}", "17={self.outputs}"),
    "a market order with a Price of 0": of_book('"" if order.price is None else', '"44=0|" if order.price is None else'),
    "fills without their price": of_book("|31={fill[1]}|", "|31={order.price}|"),
    "the average left out": of_book("|6={order.average()}|", "|6=0|"),
    "market orders that rest": of_book('if price is None and term == b"0"', "if False"),
    "refused orders whose names count": of_book("        if why := self.entry_refusal",
                                                "        before = self.greatest[order.client]\n"
                                                "        self.greatest[order.client] = max(before, order.name) "
                                                "if before < order.name and order.symbol not in self.symbols else before\n"
                                                "        if why := self.entry_refusal"),
    "names that don't count": of_book("        self.greatest[order.client] = order.name\n", ""),
    "fill or kill in part": of_book('term != b"4" or sum', "True or sum"),
    "fill or kill by what is too dear": of_book("for it in self.crossed(order)) >=",
                                                "for it in self.resting "
                                                "if it.symbol == order.symbol and it.side != order.side) >="),
    "fill or kill by other symbols": of_book("for it in self.crossed(order)) >=",
                                             "for it in self.resting "
                                             "if it.side != order.side and order.takes(it.price)) >="),
    "reports of another time": of_book("self.reports, self.client, self.when = [], client, when",
                                       "self.reports, self.client, self.when = [], client, found[-2][1]"),
    "fill or kill of more than all": of_book(">= order.left:", "> order.left:"),
    "immediate or cancel that rests": of_book('if order.left and term != b"0"', 'if order.left and term == b"4"'),
    "day orders that are cancelled": of_book('if order.left and term != b"0"', "if order.left"),
    "names of any size": of_book("if order.name <= self.greatest[order.client]", "if False"),
    "names that stay the same": of_book("if order.name <= self.greatest[order.client]",
                                        "if order.name < self.greatest[order.client]"),
    "any symbol": of_book("if order.symbol not in self.symbols", "if False"),
    "the symbol before the name": of_book("if order.name <= self.greatest[order.client]",
                                          "if order.symbol in self.symbols and order.name <= self.greatest[order.client]"),
    "a full book before the name": of_book("if order.name <= self.greatest[order.client]",
                                           "if len(self.resting) < MOST_RESTING and "
                                           "order.name <= self.greatest[order.client]"),
    "a full book for all terms": of_book('if term == b"0" and len', "if len"),
    "the incoming order's price": of_book("it.fill(quantity, price)", "it.fill(quantity, order.price or price)"),
    "the incoming order first": of_book("for it in (other, order):", "for it in (order, other):"),
    "one fill at most": of_book("            if not order.left:\n                break",
                                "            if not order.left or order.cum:\n                break"),
    "filled orders that rest": of_book("self.resting = [it for it in self.resting if it.left]", "pass"),
    "orders that don't rest": of_book("            self.resting.append(order)\n", ""),
    "a stamp of 0": of_book("order.stamp = self.commands - 1", "order.stamp = 0"),
    "requests of any name": of_book("if int(told[11]) <= self.greatest[self.client]", "if False"),
    "requests of the same name": of_book("if int(told[11]) <= self.greatest[self.client]",
                                         "if int(told[11]) < self.greatest[self.client]"),
    "an unknown order before a stale name": of_book("if int(told[11]) <= self.greatest[self.client]",
                                                    "if order and int(told[11]) <= self.greatest[self.client]"),
    "requests of another symbol": of_book("(order.symbol, order.side) != (told[55], told[54])", "order.side != told[54]"),
    "requests of another side": of_book("(order.symbol, order.side) != (told[55], told[54])", "order.symbol != told[55]"),
    "requests that are wrong": of_book(" or is_wrong else None", " else None"),
    "a refused request without a status": of_book("1 if order.cum else 0) if order", "0) if order"),
    "an unknown order of status 0": of_book('("NONE", 8)', '("NONE", 0)'),
    "a refused replace as a cancel": of_book("434={answered}", "434=1"),
    "orders of any name": of_book("== (self.client, int(told[41]))), None)", "== (self.client, it.name)), None)"),
    "orders of other members": of_book("if (it.client, it.name) == (self.client, int(told[41]))",
                                       "if it.name == int(told[41])"),
    "a cancel whose name doesn't count": of_book("            self.greatest[self.client] = int(told[11])\n"
                                                 "            self.resting.remove(order)",
                                                 "            self.resting.remove(order)"),
    "a cancel that leaves its order": of_book("            self.resting.remove(order)\n            self.report(\"4\"",
                                              "            self.report(\"4\""),
    "a cancel without its own name": of_book("name=int(told[11]), was=order.name", "was=order.name"),
    "a replace by other terms": of_book('told.get(59, b"0") != b"0" or total', "total"),
    "a replace below what was filled": of_book("total <= order.cum)", "total < order.cum)"),
    "a replace that always keeps its place": of_book("keeps_place = price == order.price and total <= order.total",
                                                     "keeps_place = True"),
    "a replace that never keeps its place": of_book("keeps_place = price == order.price and total <= order.total",
                                                    "keeps_place = False"),
    "a replace of a greater total in its place": of_book("keeps_place = price == order.price and total <= order.total",
                                                         "keeps_place = price == order.price"),
    "a replace at another price in its place": of_book("keeps_place = price == order.price and total <= order.total",
                                                       "keeps_place = total <= order.total"),
    "a replace whose name doesn't count": of_book("was, self.greatest[self.client] = order.name, int(told[11])",
                                                  "was = order.name"),
    "a replace without its name": of_book("order.name, order.total, order.price = int(told[11]), total, price",
                                          "order.total, order.price = total, price"),
    "a replace without its total": of_book("order.name, order.total, order.price = int(told[11]), total, price",
                                           "order.name, order.price = int(told[11]), price"),
    "a replace without its price": of_book("order.name, order.total, order.price = int(told[11]), total, price",
                                           "order.name, order.total = int(told[11]), total"),
    "a replace of no status": of_book('self.report("5", "1" if order.cum else "0"', 'self.report("5", "0"'),
    "a replace that doesn't trade": of_book("            self.resting.remove(order)\n            self.match(order)\n",
                                            "            self.resting.remove(order)\n"),
    "a replaced order gone": of_book("            self.match(order)\n            self.rest(order)\n\n    def listed",
                                     "            self.match(order)\n\n    def listed"),
    "a book in another order": of_book("(self.symbols.index(it.symbol), it.side, *turn_of(it))",
                                       "(self.symbols.index(it.symbol), it.side, it.stamp)"),
}

WRONG = {**BYTES, **BOOK}
