"""The errors that `planted` plants in copies of tix's Rust and of bindings/python; those in the module are tools/fuzz/errors.

An error is what it is called, as in the first line of its script; the file; a text that stands before the place; and what stands there and
what is put in its place: the first after that text.
"""

CONSTRAIN, STORAGE, TABLE = (f"crates/lang_check/src/{name}.rs" for name in ("constrain", "storage", "type_table"))
DISJOINT, PRIMITIVE, OPERATORS = "crates/lang_ty/src/disjoint.rs", "crates/lang_ty/src/primitive.rs", "crates/lang_check/src/operators.rs"

RUST = (
    # tools/differential/README.md
    ("a pair of equal numbers recorded as visited", CONSTRAIN, "// Reflexivity", "return", "self.types.constrain_cache.insert((sub, sup)); return"),
    ("upper bounds gone through from the last to the first", CONSTRAIN, "add_lower_bound", "in upper_bounds", "in upper_bounds.into_iter().rev()"),
    ("an equal pair recorded only where left < right", STORAGE, "fn record_equiv", "a != b", "a.0 < b.0"),
    ("negation of an inter not cached", TABLE, "Ty::Union(neg_a", "self.neg_cache.insert(inner_val, id);", ""),
    ("a union under a neg taken by the neg rule", CONSTRAIN, "(sub, Ty::Neg(inner))", " | Ty::Union(..)", ""),
    ("union on the right, both: the right arm first", CONSTRAIN, "Can't route", "(sub_id, a)?;", "(sub_id, b)?; return self.constrain(sub_id, a);"),
    ("union on the left tested before inter on the right", CONSTRAIN, "// Intersection on RHS", "(_, Ty::Inter(a, b)) =>",
     "(s, Ty::Inter(a, b)) if !matches!(s, Ty::Union(..)) =>"),
    ("functor: the inner lambda is sup, not a new one", CONSTRAIN, "let functor_ty", "self.alloc_concrete(Ty::Lambda { param, body })",
     "{ let _ = (param, body); sup_id }"),
    ("member search: the right arm of a union left out", CONSTRAIN, "fn union_contains_member", " || self.union_contains_member(b, target)", ""),
    ("a field pair worked before a later missing field is seen", CONSTRAIN, "fn constrain_attrsets", "let mut pairs",
     "let (sub_attr, sup_attr) = (&sub_attr.clone(), &sup_attr.clone()); for (key, &t) in &sup_attr.fields {"
     " if let Some(&s) = sub_attr.fields.get(key) { self.constrain(s, t)?; } } let mut pairs"),
    ("optional looked up in sub's fields", CONSTRAIN, "fn constrain_attrsets", "!sup_attr.optional", "!sub_attr.optional"),
    ("a variable's mark is not passed on", CONSTRAIN, "is_default_marked_param(sub)", "self.types.storage.mark_default_param(sup);", ""),
    ("double negation cached", TABLE, "fn alloc_concrete", "return *x,", "{ let x = *x; self.neg_cache.insert(inner_val, x); return x }"),
    ("lower bounds gone through: those after the third left out", CONSTRAIN, "add_upper_bound", "in lower_bounds", "in lower_bounds.into_iter().take(3)"),
    ("holds a variable: the right side of an inter left out", CONSTRAIN, "fn inter_contains_var", " || self.inter_contains_var(b)", ""),
    ("two dynamic types: the pair first", CONSTRAIN, "Propagate dyn_ty", "pairs.push((sub_dyn, sup_dyn))",
     "pairs = std::iter::once((sub_dyn, sup_dyn)).chain(pairs).collect()"),
    ("Int and Number disjoint, asked that way round", DISJOINT, "(Primitive(p1)", " && !p1.is_subtype_of(p2)", ""),
    ("a level set only where it is higher", STORAGE, "fn set_var_level", "v.level = level", "v.level = v.level.max(level)"),
    ("bounds searched up to 33", STORAGE, "BOUND_DEDUP_SCAN_LIMIT: usize", "32", "33"),
    ("bounds searched up to 31", STORAGE, "BOUND_DEDUP_SCAN_LIMIT: usize", "32", "31"),
    ("only upper bounds searched up to 31", STORAGE, "fn add_upper_bound", "Self::BOUND_DEDUP_SCAN_LIMIT", "31"),
    ("holds a variable: not through named", CONSTRAIN, "fn inter_contains_var", "self.inter_contains_var(inner)", "{ let _ = inner; false }"),
    ("an open attrset read as possibly a lambda", DISJOINT, "(AttrSet { field_keys, .. }, Lambda)", "!field_keys",
     "!matches!((a, b), (AttrSet { open: true, .. }, _) | (_, AttrSet { open: true, .. })) && !field_keys"),
    ("member search: not through named", CONSTRAIN, "fn union_contains_member", "self.union_contains_member(inner, target)", "{ let _ = inner; false }"),
    ("disjoint search: the right member of an inter left out", CONSTRAIN, "fn is_disjoint_from_sup", " || self.is_disjoint_from_sup(b, sup)", ""),
    ("union on the right, one variable: a functor not compatible with a lambda", CONSTRAIN, "fn is_concrete_compatible",
     'if attr.fields.contains_key("__functor")', "if attr.fields.is_empty()"),
    ("disjoint attrsets: the left one's optional fields not looked at", DISJOINT, "if !b_open", " && !_a_opt.contains(field)", ""),
    # for rules that have none above
    ("a variable under a variable bounds both", CONSTRAIN, "(true, _) =>", "self.types.storage.add_upper_bound(sub, sup);",
     "self.types.storage.add_upper_bound(sub, sup); if sup_is_var { self.types.storage.add_lower_bound(sup, sub); }"),
    ("bounds added while they are gone through are gone through too", CONSTRAIN, "(_, true) =>", "self.constrain(sub, ub)?;",
     "self.constrain(sub, ub)?; for late in self.types.storage.get_var(sup).unwrap().upper_bounds.clone() { self.constrain(sub, late)?; }"),
    ("a pair that failed is not kept as visited", CONSTRAIN, "(false, false) =>", "self.constrain_concrete(sub, sup)",
     "{ let r = self.constrain_concrete(sub, sup); if r.is_err() { let all = std::mem::take(&mut self.types.constrain_cache);"
     " for p in all.iter().filter(|p| **p != (sub, sup)) { self.types.constrain_cache.insert(*p); } } r }"),
    ("named on the right taken off before named on the left", CONSTRAIN, "// Named is transparent", "(Ty::Named(_, inner), _) =>",
     "(Ty::Named(_, inner), s) if !matches!(s, Ty::Named(..)) =>"),
    ("lambdas: the params not turned round", CONSTRAIN, "// Lambda: contravariant", "self.constrain(p2, p1)", "self.constrain(p1, p2)"),
    ("lambdas: the bodies first", CONSTRAIN, "// Lambda: contravariant", "self.constrain(p2, p1)?;", "self.constrain(b1, b2)?; self.constrain(p2, p1)?;"),
    ("lists: the elements turned round", CONSTRAIN, "(Ty::List(e1)", "self.constrain(e1, e2)", "self.constrain(e2, e1)"),
    ("equal primitives with two numbers mismatch", CONSTRAIN, "// Identical primitives", "if p1 == p2", "if false"),
    ("Float not under Number", PRIMITIVE, "fn is_subtype_of", " | (PrimitiveTy::Float, PrimitiveTy::Number)", ""),
    ("negations not turned round", CONSTRAIN, "(Ty::Neg(a), Ty::Neg(b))", "self.constrain(b, a)", "self.constrain(a, b)"),
    ("all is disjoint from a variable under a neg", CONSTRAIN, "(sub, Ty::Neg(inner))", "TypeEntry::Concrete(inner_ty)",
     "TypeEntry::Variable(_)) || matches!(self.types.storage.get(*inner), TypeEntry::Concrete(inner_ty)"),
    ("inter on the right: the right arm left out", CONSTRAIN, "Reuse original sub_id", "self.constrain(sub_id, b)", "{ let _ = b; Ok(()) }"),
    ("union on the left: the right arm left out", CONSTRAIN, "// Union on LHS", "self.constrain(b, sup_id)", "{ let _ = b; Ok(()) }"),
    ("inter on the left: two variables, the left one chosen", CONSTRAIN, "a_is_var || (a_has_var", "b_is_var || (b_has_var && !a_has_var)",
     "!a_is_var && (b_is_var || (b_has_var && !a_has_var))"),
    ("inter on the left: no test of disjointness", CONSTRAIN, "(true, false) => {", "if self.is_disjoint_from_sup(b, sup)", "if false"),
    ("inter on the left: the new union turned round", CONSTRAIN, "(true, false) => {", "Ty::Union(sup_id, neg_b)", "Ty::Union(neg_b, sup_id)"),
    ("inter on the left: both under sup, the right one left out", CONSTRAIN, "TODO: handle both-variable", "self.constrain(b, sup_id)", "{ let _ = b; Ok(()) }"),
    ("union on the right, two variables: the right one left out", CONSTRAIN, "// Conservative: constrain to both", "self.constrain(sub_id, b)", "{ let _ = b; Ok(()) }"),
    ("union on the right, one variable: the concrete side always", CONSTRAIN, "(false, true) => {\n                if is_concrete", "self.constrain(sub_id, b)",
     "self.constrain(sub_id, a)"),
    ("union on the right, one variable: a primitive not compatible with another", CONSTRAIN, "fn is_concrete_compatible", "discriminant_matches(sub, target_ty)",
     "(discriminant_matches(sub, target_ty) && !matches!(sub, Ty::Primitive(_)))"),
    ("union on the right, one variable: named not compatible", CONSTRAIN, "fn is_concrete_compatible", "TypeEntry::Concrete(Ty::Named(_, _) | Ty::Frozen(_)) => true",
     "TypeEntry::Concrete(Ty::Named(_, _) | Ty::Frozen(_)) => false"),
    ("union on the right, both disjoint: nothing", CONSTRAIN, "match (disjoint_a, disjoint_b)", "(true, true) =>", "(true, true) if true => Ok(()), (true, true) =>"),
    ("union on the right, one disjoint: that one", CONSTRAIN, "match (disjoint_a, disjoint_b)", "(true, false) => self.constrain(sub_id, b)",
     "(true, false) => self.constrain(sub_id, a)"),
    ("union on the right, one of the same kind: both", CONSTRAIN, "// Tiebreaker", "if disc_a && !disc_b", "if false"),
    ("a missing field not taken from the dynamic type", CONSTRAIN, "fn constrain_attrsets", "if let Some(sub_dyn) = sub_attr.dyn_ty",
     "if let (Some(sub_dyn), true) = (sub_attr.dyn_ty, sub_attr.open)"),
    ("an open attrset lacks a field", CONSTRAIN, "fn constrain_attrsets", "!sub_attr.open && ", ""),
    ("a list and a lambda not disjoint", DISJOINT, "// Different constructor kinds", "(Primitive(_), AttrSet { .. })",
     "(List, Lambda) | (Lambda, List) => false, (Primitive(_), AttrSet { .. })"),
    ("functor: the outer lambda takes the param, not the attrset", CONSTRAIN, "let functor_ty", "param: sub_id", "param"),
    ("ask equal: the second pair left out", CONSTRAIN, "self.constrain_at(a, b)?", "self.constrain_at(b, a)", "Ok(())"),
    ("a union negated as a union", TABLE, "fn alloc_concrete", "Ty::Inter(neg_a, neg_b)", "Ty::Union(neg_a, neg_b)"),
    ("a variable made at level 0", STORAGE, "fn new_var", "level: self.current_level", "level: 0"),
    ("Float and Number give Number", OPERATORS, "fn resolve_numeric_result", "lhs.is_float() || rhs.is_float()", "lhs.is_float() && rhs.is_float()"),
    ("Add of two texts gives the right one", OPERATORS, "fn resolve_add", "Some(*lhs)", "Some(*rhs)"),
)

BINDING = "sheafwinch.py"

# Those that tools/differential/README.md has on our side, planted there in bindings/rust; then more.
PYTHON = (
    ("after MORE the last two pending pairs change places", BINDING, "def work(", 'return _instalment(self._call("work", budget))',
     """told, a = self._call("work", budget), self._array
        end = a[21] + 2 * a[23]
        if told.kind == _MORE and a[23] > 1:
            a[end - 4 : end - 2], a[end - 2 : end] = a[end - 2 : end], a[end - 4 : end - 2]
        return _instalment(told)"""),
    ("a held question asked as a plain one", BINDING, "def open(", "bool(held)", "False"),
    ("budget 0 works a step", BINDING, "def work(", 'self._call("work", budget)', 'self._call("work", max(budget, 1))'),
    ("NO ROOM(4) told as NO ROOM(5)", BINDING, "def _refusal(", "Region(answer.values[0])", "Region(answer.values[0] + (answer.values[0] == 4))"),
    ("a refused make of a list raises the level", BINDING, "def make_list(", 'return self._call("make_list", element).values[0]',
     """try:
            return self._call("make_list", element).values[0]
        except Refusal:
            self._array[6] += 1
            raise"""),
    ("abandon takes back the visited pairs", BINDING, "def abandon(", 'self._call("abandon")',
     """self._call("abandon")
        for i in (20, *range(self._array[18], self._array[21])):
            self._array[i] = 0"""),
    ("ask equal asks one way", BINDING, "def open_equal(", '"open_equal"', '"open"'),
)
