"""Reads definitions from .antt files: their clauses, the right sides as trees, and the types of names.

It reads what the definitions of refusals, numbers, trace and rules are written in, and stops at anything else. A type is a
text: two types are the same where their texts are.
"""
import os
import re

ROOT = os.path.dirname(os.path.dirname(os.path.abspath(__file__)))
CRATES = ('refusals', 'numbers', 'trace', 'rules')
PATH = r'Rattle\.(%s)\.(specs|proofs)\.(\w+)' % '|'.join(CRATES)
TOKEN = re.compile(r'"(?:[^"\\]|\\.)*"|[(){};,]|[^\s(){};,"]+')

# the operators, those that bind least first
LEVELS = [[','], ['||'], ['&&'], ['≡', '≤', '<'], ['∷', '++'], ['+', '-'], ['*', '/', '%'], ['^']]
OPERATORS = {op for level in LEVELS for op in level}
RIGHT = (',', '||', '&&', '∷', '++')

# functions of the libraries
LIBRARY = {'take': 'ℕ L L', 'drop': 'ℕ L L', 'min': 'ℕ ℕ ℕ', 'suc': 'ℕ ℕ', 'length': 'L ℕ',
           'get_or': 'L ℕ ℕ ℕ'}


def content(path):
    with open(os.path.join(ROOT, path), encoding='utf-8') as f:
        return f.read()


def flat(text):
    return ' '.join(text.split())


def groups(words):
    """The words, those between brackets as one."""
    out, depth = [], 0
    for w in words:
        if depth:
            out[-1].append(w)
        else:
            out.append([w])
        depth += (w == '(') - (w == ')')
    return out


# ---- right sides

class Node:
    """A part of a right side: its kind, its place in the clause's text, its parts, and the word of a name or an
    operator, a field or a number. A record also has the names of its fields."""

    def __init__(self, kind, start, end, parts=(), word='', names=()):
        self.kind, self.start, self.end, self.parts, self.word, self.names = kind, start, end, list(parts), word, names


class Parser:
    """`named` are the modules that a name can begin with, as `Arc.does`; any other dot inside a word takes a field."""

    def __init__(self, text, start, named=()):
        self.text, self.at, self.tokens = text, 0, []
        for m in TOKEN.finditer(text, start):
            word, at = m[0], m.start()
            if word[0] == '"':
                self.tokens.append((word, at))
            elif len(word) > 1 and word.endswith('.'):     # the variable of a λ
                self.tokens += [(word[:-1], at), ('.', m.end() - 1)]
            else:
                first, *fields = re.findall(r'\.?[^.]+|\.', word)
                if fields and first in named:
                    first += fields.pop(0)
                for part in (first, *fields):
                    self.tokens.append((part, at))
                    at += len(part)

    def peek(self):
        return self.tokens[self.at][0] if self.at < len(self.tokens) else None

    def take(self, wanted=None):
        word, at = self.tokens[self.at]
        if wanted and word != wanted:
            raise ValueError('%r where %r is expected in %r' % (word, wanted, self.text))
        self.at += 1
        return word, at

    def end(self):
        word, at = self.tokens[self.at - 1]
        return at + len(word)

    def whole(self):
        node = self.expression()
        if self.peek() is not None:
            raise ValueError('%r is left in %r' % (self.peek(), self.text))
        return node

    def skip_to(self, word):
        while self.take()[0] != word:
            pass

    def expression(self, level=0):
        if self.peek() == 'λ':
            _, start = self.take()
            self.skip_to('.')
            body = self.expression()
            return Node('lambda', start, body.end, [body])
        if self.peek() == 'let':
            _, start = self.take()
            self.skip_to('=')
            value = self.expression()
            self.take('in')
            body = self.expression()
            return Node('let', start, body.end, [value, body])
        if level == len(LEVELS):
            return self.call()
        left = self.expression(level + 1)
        while self.peek() in LEVELS[level]:
            op, _ = self.take()
            right = self.expression(level if op in RIGHT else level + 1)
            left = Node('op', left.start, right.end, [left, right], op)
        return left

    def call(self):
        parts = [self.atom()]

        def joined():
            return parts[0] if len(parts) == 1 else Node('call', parts[0].start, parts[-1].end, parts)

        while True:
            word = self.peek()
            if word is None or word in OPERATORS or word in (')', '}', ';', 'in', '=', '.'):
                return joined()
            if word in ('λ', 'let'):
                parts.append(self.expression())
                return joined()
            parts.append(self.atom())

    def atom(self):
        node = self.plain()
        while (self.peek() or '').startswith('.') and self.peek() != '.':
            word, at = self.take()
            if at != node.end:
                raise ValueError('a field that stands apart, %r, in %r' % (word, self.text))
            node = Node('field', node.start, at + len(word), [node], word[1:])
        return node

    def plain(self):
        word, start = self.take()
        if word == '(':
            inner = self.expression()
            self.take(')')
            return Node('group', start, self.end(), [inner])
        if word == 'record':
            self.take('{')
            values, names = [], []
            while True:
                names.append(self.take()[0])
                self.take('=')
                values.append(self.expression())
                if self.take()[0] == '}':
                    return Node('record', start, self.end(), values, names=names)
        if word[0] == '"':
            return Node('text', start, self.end(), [], word)
        if re.fullmatch(r'0x[0-9A-Fa-f]+|[0-9]+', word):
            return Node('number', start, self.end(), [], word)
        return Node('name', start, self.end(), [], word)


# ---- definitions

def types_of(signature):
    """The types of the arguments and of the result; what is in braces is not handed over."""
    out, depth, word = [], 0, ''
    for ch in signature + '→':
        depth += (ch in '({') - (ch in ')}')
        if ch == '→' and depth == 0:
            out.append(flat(word))
            word = ''
        else:
            word += ch
    types = []
    for t in out:
        named = re.fullmatch(r'\(([^:()]*) : (.*)\)', t)
        if not t.startswith('{'):
            types += [named[2]] * len(named[1].split()) if named else [t]
    return types


def element(kind, of):
    """A in List A or Option A, and ? where the type is another."""
    found = re.fullmatch(of + r' (?:\((.*)\)|(.*))', kind)
    return (found[1] or found[2]) if found else '?'


class Clause:
    """A clause: where it starts in its file, its text, its patterns and its right side."""

    def __init__(self, start, text, named=()):
        self.start, self.text = start, text
        head = re.search(r'(?<=\s)=(?=\s)', text).start()
        self.patterns = groups(TOKEN.findall(text[:head])[1:])
        self.body = Parser(text, head + 1, named).whole()

    def left(self):
        return self.text[:self.body.start]

    def right(self):
        return self.text[self.body.start:]

    def bound(self):
        return {w for p in self.patterns for w in p}

    def used(self):
        return set(TOKEN.findall(self.right().replace('.', ' . ')))


class Definition:
    def __init__(self, name, types, start):
        self.name, self.types, self.start, self.clauses = name, types, start, []


class Module:
    """A file: what it imports, the modules of the crates that it uses, and once read its definitions."""

    DECLARED = re.compile(r' *(?:(?:abbrev|unfoldable|pub) )*([^\s:(){}]+) : (.*)')

    def __init__(self, crate, folder, name, text=None):
        self.key = (crate, folder, name)
        self.path = 'crates/%s/%s/%s.antt' % self.key
        self.text = content(self.path) if text is None else text
        self.definitions, self.imports, self.uses, self.named = {}, {}, set(), {}
        for m in re.finditer(r'^use (\S+?)(?:\.\{(.*)\})?(?: as (\S+))?$', self.text, re.M):
            where = re.fullmatch(PATH, m[1])
            if where and where[3] != 'declared':
                self.uses.add(where.groups())
            if m[2] is None:
                self.named[m[3] or m[1].rpartition('.')[2]] = m[1]
            for item in (m[2] or '').split(', '):
                original, _, alias = item.partition(' as ')
                self.imports[alias or original] = (m[1], original)

    def read(self):
        """Finds the definitions. Claims, which give a type, have no clauses here; types are read by `Definitions`."""
        current, skipped, at = None, None, 0
        lines = self.text.split('\n')
        while lines:
            line = lines.pop(0)
            start, bare, pad = at, line.strip(), len(line) - len(line.lstrip())
            at += len(line) + 1
            if skipped is not None and (not bare or pad > skipped):
                continue
            skipped = None
            if not bare or re.match(r'--|use |module |unfolding |pub mod ', bare):
                continue
            if re.match(r'(pub )?(record|data) ', bare):
                skipped = pad
                continue
            m = self.DECLARED.fullmatch(line)
            if m:
                current = self.definitions[m[1]] = Definition(m[1], types_of(m[2]), start)
                continue
            text = line[pad:]
            while lines and re.match(r' {%d,}(?!--)\S' % (pad + 1), lines[0]):
                text += '\n' + lines[0]
                at += len(lines.pop(0)) + 1
            if current is None or text.split()[0] != current.name:
                raise ValueError('%s: what does this line belong to? %s' % (self.path, line))
            if not current.types[-1].startswith('Type'):
                current.clauses.append(Clause(start + pad, text, self.named))


class Definitions:
    """The definitions of the crates, and the modules that a table of their values needs.

    `kinds` has for each type where it is declared, and its constructors with the types of their arguments; `records`
    the fields of each record with their types; `source` the enums and structs of the crates."""

    def __init__(self, table):
        self.modules, self.records, self.source = {}, [], ''
        self.kinds = [(home, {'true': [], 'false': []}) for home in ('Rattle.std.specs.Prelude', 'mathlib.Core.Bool')]
        todo = [table]
        for crate in CRATES:
            names = sorted(os.listdir(os.path.join(ROOT, 'crates', crate, 'specs')))
            todo += [(crate, 'specs', name[:-5]) for name in names if name != 'Lib.antt']
            self.read_source(content('crates/%s/src/lib.rt' % crate))
        while todo:
            key = todo.pop()
            if key not in self.modules:
                self.modules[key] = Module(*key)
                todo += self.modules[key].uses
        specs = sorted((k for k in self.modules if k[1] == 'specs'), key=lambda k: (CRATES.index(k[0]), k))
        self.specs = [self.modules[k] for k in specs]
        for module in self.specs:
            module.read()
            self.read_types(module.key, module.text)

    def read_types(self, key, text):
        of_type = r'^( *)(?:pub )?(record|data) .*\bwhere\n((?:\1 +.*\n|\n(?=\1 +))*)'
        for m in re.finditer(of_type, text, re.M):
            items = {n: types_of(t) for n, t in re.findall(r'^ *(?:pub )?([^\s:-]+) : (.*)$', m[3], re.M)}
            if m[2] == 'data':
                self.kinds.append((key, {n: t[:-1] for n, t in items.items()}))
            else:
                self.records.append({n: ' → '.join(t) for n, t in items.items()})

    def read_source(self, text):
        def types(fields):
            named = [f.split(':')[-1].strip() for f in fields.split(',') if f.strip()]
            return ['ℕ' if re.fullmatch(r'u\d+|usize|T', t) else re.sub(r'<(\w+)>', r' \1', t) for t in named]

        for m in re.finditer(r'^pub (enum|struct) (\w+)(?:<T>)? \{\n(.*?)^\}\n', text, re.M | re.S):
            self.source += '#[derive(Clone, Copy)]\n' + m[0]
            if m[1] == 'struct':
                self.records.append({n: types(t)[0] for n, t in re.findall(r'^    pub (\w+): (.*),$', m[3], re.M)})
            else:
                variants = re.finditer(r'^    (\w+)(?:\((.*?)\)|\s*\{(.*?)\})?,$', m[3], re.M | re.S)
                self.kinds.append((m[2], {v[1]: types(v[2] or v[3] or '') for v in variants}))

    def home(self, module, name):
        """The module that has the definition which a name stands for, and this definition; None where it has none."""
        if name in module.definitions:
            return module, module.definitions[name]
        where, original = module.imports.get(name, ('', name))
        m = re.fullmatch(PATH, where)
        other = self.modules.get(m.groups()) if m else None
        return (other, other.definitions[original]) if other and original in other.definitions else None

    def signature(self, module, name):
        """The types of a function's arguments and of its result, or None."""
        found = self.home(module, name)
        if found:
            return found[1].types
        return LIBRARY[name].split() if name in LIBRARY and name in module.imports else None

    def constructor(self, module, name):
        """The constructors of a constructor's type, and what it is called among them; None where it is none."""
        if name in module.definitions:
            return None
        first, dot, own = name.partition('.')
        where, original = (module.named[first], own) if dot and first in module.named else module.imports.get(name, ('', name))
        path, enum = re.fullmatch(PATH, where), re.search(r'declared\.(\w+)\.TheVariants$', where)
        place = path.groups() if path else enum[1] if enum else where or module.key
        return next(((kind, original) for home, kind in self.kinds if home == place and original in kind), None)

    def sibling(self, module, name):
        """The next constructor of the same type with arguments of the same types, as the module calls it, or None."""
        found = self.constructor(module, name)
        if not found:
            return None
        kind, own = found
        first, dot, _ = name.partition('.')
        where, _ = module.imports.get(name, ('', name))
        names = list(kind)
        at = names.index(own)
        for n in names[at + 1:] + names[:at]:
            if kind[n] == kind[own]:
                if dot:
                    return first + dot + n
                called = [a for a, source in module.imports.items() if source == (where, n)]
                if called or n not in module.imports:
                    return called[0] if called else n
        return None

    def alike(self, module, definition, name):
        """The functions of the same type in the file that this one is from, as far as a definition can use them."""
        found = self.home(module, name)
        if not found or len(found[1].types) == 1:
            return []
        home, own = found
        others = [d for d in home.definitions.values() if d.types == own.types and d not in (own, definition)]
        if home is module:
            return [d.name for d in others if d.start < definition.start]
        return [d.name for d in others if d.name not in module.imports]

    def variables(self, module, definition, clause):
        """The variables of a clause with their types, ? where the text does not tell."""
        found = {}

        def bind(words, kind):
            if words[0] == '(':
                words = words[1:-1]
            head = words[0]
            if '∷' in words:
                at = words.index('∷')
                bind(words[:at], element(kind, 'List'))
                bind(words[at + 1:], kind)
            elif len(words) == 1:
                if head not in ('[]', 'none', 'None', 'zero') and not self.constructor(module, head):
                    found[head] = kind
            else:
                known = {'suc': ['ℕ'], 'some': [element(kind, 'Option')], 'Some': [element(kind, 'Option')]}.get(head)
                made = self.constructor(module, head)
                for g, t in zip(groups(words[1:]), known or (made[0][made[1]] if made else ['?'] * len(words))):
                    bind(g, t)

        for words, kind in zip(clause.patterns, definition.types):
            bind(words, kind)
        return found
