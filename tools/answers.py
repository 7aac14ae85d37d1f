#!/usr/bin/env python3
"""answers.py CRATE NAMES.json [FUNCTION..]: turns proofs that walk the code (proofs/F/Proof.antt, in the form of the older kit) into Invariants.antt and Answers.antt.

NAMES.json is what `rt check --generated DIR --old-names` writes in the crate's folder: each goal, step and place with its old and its new name. What has no
counterpart is printed, and left out. Run once; the check says what is left to do by hand."""
import json, os, re, sys

crate, names = sys.argv[1], json.load(open(sys.argv[2]))
only = sys.argv[3:]
top = os.environ.get('ROOT') or os.path.dirname(os.path.dirname(os.path.abspath(__file__)))
folder = os.path.join(top, 'crates', crate, 'proofs')
W = r"[^\s(){}.;,@\"«»`\[\]]"


def plain(name):
    name = name.replace('-', '_')
    return name


def variants(name):
    n = plain(name)
    yield n
    if n.endswith('_lem'): yield n[:-4]
    yield n.lower()
    if n.lower().endswith('_lem'): yield n.lower()[:-4]
    for head in ('overflow_', 'nonzero_', 'offset_', 'nonzero_overflow_'):
        if n.startswith(head): yield n[len(head):]


def lookup(table, name):
    for n in variants(name):
        if n in table: return table[n]
    return None


def spec_args(text):
    """The arguments of tie.spec in the last declaration."""
    at = text.find('tie.spec')
    if at < 0: return []
    rest, out, i = text[at + len('tie.spec'):], [], 0
    while i < len(rest):
        ch = rest[i]
        if ch.isspace(): i += 1; continue
        if ch == ')': break
        j, depth = i, 0
        while j < len(rest):
            if rest[j] in '([{': depth += 1
            if rest[j] in ')]}':
                if depth == 0: break
                depth -= 1
            if depth == 0 and rest[j].isspace(): break
            j += 1
        out.append(rest[i:j])
        i = j
    return out


def turn(path, d):
    rel = path.replace('.', '/')
    file = os.path.join(folder, rel, 'Proof.antt')
    if not os.path.exists(file): return
    text = open(file).read()
    if 'tie.' not in text:
        print('%s: no tie' % file); return
    say = lambda s: print('%s/%s: %s' % (crate, rel, s))
    needs = {plain(o): n for o, n in d['needs']}
    order = [n for o, n in d['needs']]
    steps = {plain(p[2][0]): p[2][1] for p in d['places'] if p[2][0]}
    newplaces = d.get('places_by_name') or []
    places = {plain(p[0]): newplaces[i] for i, p in enumerate(d['places']) if i < len(newplaces)}
    places.update({plain(p[0]).lower(): newplaces[i] for i, p in enumerate(d['places']) if i < len(newplaces)})
    typed = {}
    for i, p in enumerate(d['places']):
        if i < len(d['typed']): typed[newplaces[i]] = {plain(s): v for v, s in (d['typed'][i] or [])}
    asked = {n: a[1] for (o, n), a in zip(d['needs'], d['asked_at'])} if len(d['needs']) == len(d['asked_at']) else {}
    loops = d['loops']

    blocks = re.split(r'\n\n+', text.strip('\n'))
    uses, decls, head = [], [], []
    for b in blocks:
        lines = b.split('\n')
        while lines and (lines[0].startswith('use ') or lines[0].startswith('pub use ') or (lines[0].startswith('--') and not decls and not uses)):
            (head if lines[0].startswith('--') else uses).append(lines.pop(0))
        if lines: decls.append('\n'.join(lines))
    # an indented block goes with the section above it
    joined = []
    for b in decls:
        if joined and b.startswith(' '): joined[-1] += '\n\n' + b
        else: joined.append(b)
    decls = joined
    uses = [u for u in uses if not re.search(r'\.(Statement\.\{statement\}|Tie as tie)$', u)]

    goal_of, answers_names = {}, {}
    for b in decls:
        m = re.search(r'(?m)^(?:pub )?(%s+) : tie\.Need-(%s+)' % (W, W), b)
        if m:
            g = lookup(needs, m[2])
            if g is None: say('no goal for Need-%s' % m[2])
            goal_of[m[1]] = g

    parent = {plain(p[0]): plain(p[1]) for p in d['places'] if p[1]}
    old_asked = {n: plain(a[0]) for (o, n), a in zip(d['needs'], d['asked_at'])} if len(d['needs']) == len(d['asked_at']) else {}
    new_place = {plain(p[0]): newplaces[i] for i, p in enumerate(d['places']) if i < len(newplaces)}
    arms, own_arms = {}, {}
    for x in d.get('arms') or []:
        for field, step, rest in (x[2] if x else []):
            if field.endswith('-own'):
                own_arms.setdefault(plain(step), {})[x[0]] = '%s.%s' % (x[0], field)
                continue
            arms.setdefault((plain(step),) + tuple(plain(r) for r in rest), '%s.%s' % (x[0], field))
    pre_fields = (d.get('pre') or {}).get('fields') or []
    ensures_fields = {}
    for p, x in zip(d['places'], d.get('clauses') or []):
        if x and p[2][0]: ensures_fields[plain(p[2][0])] = x['fields']
    callee = {plain(p[2][0]): p[3] for p in d['places'] if p[2][0]}
    asked_fields = {}
    for o, n in d['needs']:
        if o in (d.get('asked') or {}): asked_fields[n] = d['asked'][o]
    arg_names = {}
    for o, n in d.get('args') or []:
        o, n = o.split(), n.split()
        if len(o) == 2 and len(n) == 2: arg_names[o[0][1:], o[1][1:]] = n[1][1:]
    places_used = set()

    def by_clause(words, i, fields):
        """Clauses by name: words[i:] is a path into pairs that nest to the right."""
        k, at = i, 0
        if len(fields) == 1: return words[:i] + fields + words[i:]
        while at < len(fields) - 1:
            if k >= len(words): return words
            if words[k] == '0': return words[:i] + [fields[at]] + words[k + 1:]
            if words[k] != '1': return words
            at, k = at + 1, k + 1
        return words[:i] + [fields[at]] + words[k:]

    def split(last):
        """The parts of a tuple's text, or None."""
        last = re.sub(r',\s*\)$', ')', last.strip())
        if not (last.startswith('(') and last.endswith(')')): return None
        depth, cuts = 0, []
        for i, ch in enumerate(last):
            if ch in '([{': depth += 1
            if ch in ')]}':
                depth -= 1
                if depth == 0 and i < len(last) - 1: return None
            if ch == ',' and depth == 1: cuts.append(i)
        if not cuts: return None
        ends = [0] + cuts + [len(last) - 1]
        return [last[p + 1:q].strip() for p, q in zip(ends, ends[1:])]

    def as_record(body, g):
        """A tuple of clauses as a record of them."""
        fields = asked_fields.get(g)
        if not fields: return body
        text = body.rstrip()
        end = max(text.rfind(' in\n'), text.rfind(' in ('))
        last = text[end + 3:].lstrip() if end >= 0 else text.lstrip()
        lead = text[:len(text) - len(last)]
        items = []
        while len(items) < len(fields) - 1:
            parts = split(last)
            if not parts or len(parts) != 2: break
            items.append(parts[0])
            last = parts[1]
        if not items and last.startswith('rw ') and last.endswith(')'):
            depth, i = 0, len(last) - 1
            while i >= 0:
                if last[i] in ')]}': depth += 1
                if last[i] in '([{':
                    depth -= 1
                    if depth == 0: break
                i -= 1
            head, group = last[:i], last[i:]
            while len(items) < len(fields) - 1:
                parts = split(group)
                if not parts or len(parts) != 2: break
                items.append(parts[0])
                group = parts[1]
            if len(items) == len(fields) - 1:
                items.append(group)
                return lead + head + '(record { ' + ' '.join('%s = %s;' % (a, b) for a, b in zip(fields, items)) + ' })'
        if len(items) != len(fields) - 1:
            say('clauses of %s by hand: %s' % (g, fields)); return body
        items.append(last)
        return lead + 'record { ' + ' '.join('%s = %s;' % (a, b) for a, b in zip(fields, items)) + ' }'

    PATH = r"((?:\.(?!before\b)%s+)+)" % W

    def ancestors(p):
        while p:
            yield p
            p = parent.get(p)

    def paths(body, goal, params):
        """A body by today's names. `c` is the record of the goal; params are helpers' parameters with their places."""
        place, from_c = dict(params), set()
        if goal: place['c'] = old_asked.get(goal)
        for old, g in goal_of.items():
            if g and old != g: body = re.sub(r"(?<![\w.'-])%s(?![\w'-])" % re.escape(old), g, body)
        # names for parts of a record, of which only fields are read: the parts themselves, the last first
        for _ in range(40):
            found = None
            known = set(place)
            for k in re.finditer(r"let (%s+) = (%s+)((?:\.%s+)*)\s+in\s*" % (W, W, W), body):
                if k[2] not in known: continue
                name, rest = k[1], body[k.end():]
                last = k[3].split('.')[-1]
                if last == 'before' or not k[3]: known.add(name)
                whole = last == 'before' or not k[3] or last in ('given',) or re.search(r"(?<![\w.'-])%s\.(?:auto|kept|new)\.[01]" % re.escape(name), rest) or (last == 'ensures' and any(len(f) > 1 for f in ensures_fields.values())) or (len(pre_fields) > 1 and any(w in ('pre', 'requires') for w in k[3].split('.'))) or any(plain(q) in {s for s, *_ in arms} for q in k[3].split('.'))
                if not whole: continue
                if re.search(r"(?<![\w.'-])let %s =|λ [^.]*(?<![\w.'-])%s(?![\w'-])[^.]*\." % (re.escape(name), re.escape(name)), body[:k.start()] + rest): continue
                if re.search(r"(?<![\w.'-])%s(?:\.before)*(?![\w.'-])" % re.escape(name), rest): continue
                found = k
            if not found: break
            m = found
            body = body[:m.start()] + re.sub(r"(?<![\w.'-])%s(?=\.)" % re.escape(m[1]), m[2] + m[3], body[m.end():])

        for k in re.finditer(r"let (%s+) = (%s+)((?:\.before)*)\s+in\s*" % (W, W), body):
            if k[2] not in place: continue
            p = place[k[2]]
            for _ in range(k[3].count('.before')): p = parent.get(p) if p else None
            place.setdefault(k[1], p)
            if k[2] == 'c' or k[2] in from_c: from_c.add(k[1])

        def field(m):
            var, words = m[1], m[2].split('.')[1:]
            if var not in place and not any(w == 'before' for w in words): return m[0]
            while words and words[0] == 'before': words.pop(0)
            if not words: return m[0]
            key = [plain(w) for w in words]
            if words[0] in ('type_size', 'type-size') and 'size_of' in steps: words[0] = 'size_of'
            step = lookup(steps, words[0])
            oldstep = next((n for n in variants(words[0]) if n in steps), None)
            if oldstep or key[0] == 'match':
                for cut in range(len(key), 0, -1):
                    hit = arms.get(tuple([oldstep or key[0]] + key[1:cut]))
                    if hit: return '.'.join([var, hit] + words[cut:])
            own = own_arms.get(oldstep or key[0])
            if own and len(own) == 1 and key[0] != 'match': return '.'.join([var, list(own.values())[0]] + words[1:])
            if key[0] == 'match' and own:
                ins = [re.sub(r'-\d+$', '', new_place[p]) for p in ancestors(place.get(var)) if new_place.get(p, '').startswith('In')]
                for i in ins:
                    hit = own.get('in' + i[2:])
                    if hit: return '.'.join([var, hit] + words[1:])
            if key[0].startswith('enum_told') and key[1:3] == ['given', '1']:
                ins = [new_place[p] for p in ancestors(place.get(var)) if new_place.get(p, '').startswith('In-')]
                if ins: return '.'.join([var, 'in' + re.sub(r'-\d+$', '', ins[0])[2:], 'is'] + words[3:])
            if words[0] == 'type_inv' and words[1:2] == ['ensures'] and 'typed' in steps: words[0], step, oldstep = 'typed', steps['typed'], 'typed'
            if (words[0], '.'.join(words[1:2])) in arg_names: words[1] = arg_names[words[0], words[1]]
            if step:
                if words[1:2] == ['given'] and var == 'c' and goal:
                    v = typed.get(new_place.get(place.get('c')), {}).get(oldstep)
                    if v: return '.'.join([var, 'type_inv', v] + words[2:])
                words[0] = step
                if words[1:2] == ['taken']: words[1] = 'true'
                if words[1:2] == ['left'] and not step.startswith('loop'): words[1] = 'false'
                if words[1:2] == ['ensures'] and ensures_fields.get(oldstep): words = by_clause(words, 2, ensures_fields[oldstep])
                if words[1:2] == ['kept']: words[1] = 'auto'
                if words[1:2] == ['inv']: words[1] = 'invariant'
                if words[1:2] in (['auto'], ['new']) and words[2:3] and words[2] in ('0', '1'):
                    names_of = d['params'].get(callee.get(oldstep) or '', [])
                    k = 2
                    while words[k:k + 1] == ['1']: k += 1
                    if words[k:k + 1] == ['0'] and k - 2 < len(names_of): words = words[:2] + [names_of[k - 2]] + words[k + 1:]
            elif words[0] in ('pre', 'requires'):
                words[0] = 'requires'
                if len(pre_fields) > 1: words = by_clause(words, 1, pre_fields)
            return '.'.join([var] + words)

        body = re.sub(r"(?<![\w.'-])(%s+)((?:\.%s+)+)" % (r'[A-Za-z][\w₀-₉\']*', W), field, body)
        body = re.sub(r"\)((?:\.before)*)\.(%s+)((?:\.%s+)*)" % (W, W), lambda m: field_behind(m), body) if steps else body

        # whole records handed on
        def whole(m):
            var, hops = m[1], m[2].count('.before')
            p = place.get(var)
            if var not in place or not p: return m[0]
            for _ in range(hops): p = parent.get(p)
            if not p: return m[0]
            if hops == 0: return var
            places_used.add(new_place[p])
            if goal and (var == 'c' or var in from_c): return '(goal.at.%s c).%s' % (goal, new_place[p])
            return '%s.%s' % (var, new_place[p])

        body = re.sub(r"(?<![\w.'-])([a-z][\w₀-₉']*)((?:\.before)*)(?![\w.'-])", whole, body)
        for (o, n), v in arg_names.items():
            if o == 'args': body = re.sub(r'\.%s\b' % n, '.' + v, body)
        body = re.sub(r' κs\b', '', body)
        body = re.sub(r'\.0\.taken\b', '.0.true', body)
        body = re.sub(r'\.0\.left\b', '.0.false', body)
        # a test of `!x` says what it says of x
        body = re.sub(r"not-(?:true|false) _ ([^\s()]*\.if-not-[^\s(),]+)", r'\1', body)
        return body

    def field_behind(m):
        step = lookup(steps, m[2])
        if not step: return m[0]
        rest = m[3].replace('.taken', '.true').replace('.left', '.false').replace('.kept', '.auto')
        return ').' + step + rest

    def types(t):
        def one(m):
            n = lookup(new_place, m[1])
            if n is None: return m[0]
            places_used.add(n)
            return n
        t = re.sub(r'(tie\.%s+)((?: (?:invariant|decreases)-loop%s*)+)' % (W, W), r'\1', t)
        return re.sub(r'tie\.((?:After|In|Then|Else|At|Start|Here|Joined|Join|Out|Past)%s*)' % W, one, t)

    def typed_params(t):
        return {v: next((n for n in variants(p) if n in parent or n in new_place), None)
            for vs, p in re.findall(r'[({]((?:%s+ )+): tie\.(%s+)' % (W, W), t) for v in vs.split()}

    # a section's names for earlier records are its parameter itself
    record_names, defined_in = {}, {}
    for n, b in enumerate(decls):
        m = re.search(r'(?m)^ *module _ \((%s+) : tie\.%s+' % (W, W), b)
        if not m: continue
        v = m[1]
        for k in list(re.finditer(r'\n( *)abbrev (%s+) : tie\.(?!Need)[^\n]*\n *\2 = (%s+)((?:\.before)+)(?=\n)' % (W, W), b)):
            record_names[k[2]] = (k[3], k[4])
            defined_in[k[2]] = n
        for _ in range(4):
            for a, (o, p) in record_names.items():
                b = re.sub(r'\n *abbrev %s : tie\.[^\n]*\n *%s = [^\n]*\n?' % (re.escape(a), re.escape(a)), '\n', b)
                b = re.sub(r"(?<![\w.'-])%s(?=\.)" % re.escape(a), o + p, b)
        decls[n] = re.sub(r'\n{3,}', '\n\n', b)
    for n, b in enumerate(decls):
        for _ in range(4):
            for a, (o, p) in record_names.items():
                b = re.sub(r"(?<![\w.'-])%s (\((%s+(?:\.before)*)\)|%s+(?:\.before)*)(?![\w'-])" % (re.escape(a), W, W), lambda m: (m[2] or m[1]) + p if (m[2] or m[1]) not in (':', '=') else m[0], b)
            b = re.sub(r"(?<=[ (\[])\((%s+(?:\.before)+)\)" % W, r'\1', b)
            for a, (o, p) in record_names.items():
                if defined_in[a] == n: b = re.sub(r"(?<![\w.'-])%s(?=\.)" % re.escape(a), o + p, b)
        decls[n] = b
    inv_out, ans_out, used_goals = [], [], set()
    for b in decls:
        lines = b.split('\n')
        comment = []
        while lines and lines[0].startswith('--'): comment.append(lines.pop(0))
        body = '\n'.join(lines)
        m = re.match(r'abbrev (?:pub )?(invariant|decreases)-loop(%s*) : tie\.(?:invariant|decreases)-loop(%s*)\n(\S+)((?: %s+)*) =\s*' % (W, W, W), body)
        if m:
            k = 0
            suffix = m[3].lstrip('-')
            olds = [plain(l[0][0]) for l in loops]
            want = plain('loop' + (m[3] or ''))
            if want in olds: k = olds.index(want)
            elif suffix.isdigit(): k = int(suffix) - 1
            (oldname, newname), vars_ = loops[k]
            params = m[5].split()
            changed = d['changed'][k] if k < len(d['changed']) else []
            rest = body[m.end():]
            n = len(vars_)
            table = {}
            if len(params) < n: say('loop %s: %d parameters, %d variables' % (newname, len(params), n))
            for i, p in enumerate(params[:n]):
                if i < len(changed) and changed[i]: table[p] = 'l.initial.' + vars_[i]
                else: table[p] = 'l.' + vars_[i]
            cur = [v for v, ch in zip(vars_, changed) if ch]
            for p, v in zip(params[n:], cur): table[p] = 'l.' + v
            if len(params) - n != len(cur): say('loop %s: parameters %s for variables %s, changed %s' % (newname, params, vars_, cur))
            rest = re.sub(r"(?<![\w.'◌-])(%s+)" % r"[A-Za-zα-ω_][\w₀-₉'-]*", lambda q: table.get(q[1], q[1]), rest)
            inv_out.append('\n'.join(comment + ['abbrev pub %s-%s : goal.%s-%s' % (m[1], newname, m[1], newname), '%s-%s l = %s' % (m[1], newname, rest)]))
            continue
        if re.match(r'pub \S+ : \{M : Type 1\} → statement M', body):
            args = spec_args(body)
            opened = re.findall(r'(?m)^unfolding [^\n]*$', body)
            opened = opened[0] + '\n' if opened else ''
            nl = 2 * len(loops)
            inv = sum(1 for a in args if re.match(r'(invariant|decreases)-', a))
            goals = args[inv:]
            inline = [(i, a) for i, a in enumerate(goals) if a.startswith('(') and not re.fullmatch(r'\((λ [^.]*\. )?search rules\)', a)]
            for i, a in inline:
                # place by the named neighbours
                g = None
                if len(goals) == len(order): g = order[i]
                else:
                    for j in range(i - 1, -1, -1):
                        if goal_of.get(goals[j]) in order:
                            k = order.index(goal_of[goals[j]]) + (i - j)
                            g = order[k] if k < len(order) else None
                            break
                    else:
                        for j in range(i + 1, len(goals)):
                            if goal_of.get(goals[j]) in order:
                                k = order.index(goal_of[goals[j]]) - (j - i)
                                g = order[k] if k >= 0 else None
                                break
                    say('inline answer %s at %d of %d, %d goals now: taken for %s' % (a[:60], i, len(goals), len(order), g))
                if g is None or g in used_goals: say('inline answer lost: ' + a); continue
                mm = re.match(r'\(λ ([^.]*)\. (.*)\)$', a, flags=re.S)
                if mm:
                    arg, bb = mm[1].split()[0], mm[2]
                    more = ''.join(' ' + p for p in mm[1].split()[1:] if p != 'κs')
                    if arg != 'c': bb = re.sub(r"(?<![\w.'-])%s(?![\w'-])" % re.escape(arg), 'c', bb)
                    ans_out.append('pub %s : goal.%s\n%s%s c%s = %s' % (g, g, opened, g, more, as_record(types(paths(bb, g, {})), g)))
                else:
                    ans_out.append('pub %s : goal.%s\n%s%s c = %s' % (g, g, opened, g, as_record(types(paths(a, g, {})), g)))
                used_goals.add(g)
            continue
        m = re.match(r'(?:pub )?(%s+) : tie\.Need-(%s+)([^\n]*)\n((?:unfolding [^\n]*\n)?)' % (W, W), body)
        if m:
            g = goal_of.get(m[1])
            rest = body[m.end():]
            mm = re.match(r'%s((?: [^\s=(){}.;,@]+)*) =' % re.escape(m[1]), rest)
            if not mm: say('cannot read ' + m[1]); ans_out.append('-- ' + body.replace('\n', '\n-- ')); continue
            params = mm[1].split()
            arg = params[0] if params else 'c'
            bb = rest[mm.end():]
            if arg != 'c' and params: bb = re.sub(r"(?<![\w.'-])%s(?![\w'-])" % re.escape(arg), 'c', bb)
            if g is None:
                say('lost: ' + m[1]); continue
            if re.fullmatch(r'\s*search rules', bb): continue
            if g in used_goals: say('twice: ' + g); continue
            used_goals.add(g)
            more = [p for p in params[1:] if p != 'κs']
            lhs = ' '.join([g, 'c'] + more) + ' =' if params else '%s =' % g
            ans_out.append('\n'.join(comment + ['pub %s : goal.%s' % (g, g)] + ([m[4].rstrip('\n')] if m[4] else []) + [lhs + as_record(types(paths(bb, g, {})), g)]))
            continue
        typed_here = typed_params(body)
        ans_out.append('\n'.join(comment + [''.join(types(paths(part, None, typed_here)) for part in re.split(r'(\n\n+)', body))]))
    out = '\n\n'.join(ans_out)
    for old, g in goal_of.items():
        if g and re.search(r"(?<![\w.'-])%s(?![\w'-])" % re.escape(g), re.sub(r'(?m)^(pub )?%s( c)?( :| =)' % re.escape(g), '', out).replace('goal.' + g, '')): say('an answer is cited: ' + g)
    mod = 'Rattle.%s.proofs.%s' % (crate, path)
    if inv_out:
        with open(os.path.join(folder, rel, 'Invariants.antt'), 'w') as f:
            f.write('\n'.join(head + uses + ['use %s.Given as goal' % mod]) + '\n\n' + '\n\n'.join(inv_out) + '\n')
    if ans_out:
        extra_use = ['use %s.Tie as tie' % mod] if 'tie.' in out else []
        names_used = [p for p in sorted(places_used) if re.search(r"(?<![\w'-])%s(?![\w'-])" % re.escape(p), out)]
        if names_used: extra_use.append('use %s.Goals.{%s}' % (mod, ', '.join(names_used)))
        with open(os.path.join(folder, rel, 'Answers.antt'), 'w') as f:
            f.write('\n'.join(head + uses + ['use %s.Goals as goal' % mod] + extra_use) + '\n\n' + out + '\n')
    os.remove(file)


for key, d in names.items():
    m = re.fullmatch(r'Rattle-%s-proofs\.(.+)\.Lts' % re.escape(crate), key)
    if not m: continue
    if only and m[1] not in only: continue
    turn(m[1], d)
