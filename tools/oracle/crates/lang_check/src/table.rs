//! The oracle as a library, for a program that asks it in process (tools/differential). Entries are numbers, as in the line script;
//! primitives are those of 01.
use crate::oracle::{prim_no, shape_disjoint, PRIMS};
use crate::storage::TypeEntry;
use crate::{CheckCtx, InferenceError, TyId};
use lang_ty::{AttrSetTy, Ty};
use smol_str::SmolStr;

/// A table of the Rust.
#[derive(Clone)]
pub struct Table(CheckCtx<'static>);

/// What an entry holds.
pub enum Entry<'a> {
    Variable { level: u32 },
    Primitive(u32),
    List(u32),
    Lambda(u32, u32),
    Attrset(Attrset<'a>),
    Named(u32, &'a str),
    Neg(u32),
    Inter(u32, u32),
    Union(u32, u32),
}

/// What an attrset holds.
pub struct Attrset<'a>(&'a AttrSetTy<TyId>);

impl<'a> Attrset<'a> {
    pub fn open(&self) -> bool {
        self.0.open
    }

    pub fn dynamic(&self) -> Option<u32> {
        self.0.dyn_ty.map(|d| d.0)
    }

    /// Name, entry, and whether it is optional, by the name.
    pub fn fields(&self) -> impl ExactSizeIterator<Item = (&'a str, u32, bool)> + 'a {
        let set = self.0;
        set.fields.iter().map(|(name, e)| (name.as_str(), e.0, set.optional_fields.contains(name)))
    }
}

/// How a question ended. The pair is the one visited last; a mismatch carries its types, which is tested.
pub enum Answer {
    Yes,
    More,
    Mismatch { sub: u32, sup: u32 },
    Missing { sub: u32, sup: u32, name: SmolStr },
}

impl Default for Table {
    fn default() -> Self {
        Table(CheckCtx::new())
    }
}

impl Table {
    pub fn make_variable(&mut self) -> u32 {
        self.0.types.new_var().0
    }

    pub fn make_primitive(&mut self, which: u32) -> u32 {
        self.make(Ty::Primitive(PRIMS[which as usize]))
    }

    pub fn make_list(&mut self, element: u32) -> u32 {
        self.make(Ty::List(TyId(element)))
    }

    pub fn make_lambda(&mut self, param: u32, body: u32) -> u32 {
        self.make(Ty::Lambda { param: TyId(param), body: TyId(body) })
    }

    /// A field is its name, its entry, and whether it is optional.
    pub fn make_attrset<'a>(
        &mut self,
        open: bool,
        dynamic: Option<u32>,
        fields: impl IntoIterator<Item = (&'a str, u32, bool)>,
    ) -> u32 {
        let mut set = AttrSetTy::new();
        set.open = open;
        set.dyn_ty = dynamic.map(TyId);
        for (name, entry, optional) in fields {
            let name = SmolStr::new(name);
            if optional {
                set.optional_fields.insert(name.clone());
            }
            set.fields.insert(name, TyId(entry));
        }
        self.make(Ty::AttrSet(set))
    }

    pub fn make_named(&mut self, inner: u32, label: &str) -> u32 {
        self.make(Ty::Named(SmolStr::new(label), TyId(inner)))
    }

    pub fn make_neg(&mut self, n: u32) -> u32 {
        self.make(Ty::Neg(TyId(n)))
    }

    pub fn make_inter(&mut self, left: u32, right: u32) -> u32 {
        self.make(Ty::Inter(TyId(left), TyId(right)))
    }

    pub fn make_union(&mut self, left: u32, right: u32) -> u32 {
        self.make(Ty::Union(TyId(left), TyId(right)))
    }

    fn make(&mut self, ty: Ty<TyId>) -> u32 {
        self.0.alloc_concrete(ty).0
    }

    pub fn mark(&mut self, n: u32) {
        self.0.types.storage.mark_default_param(TyId(n))
    }

    pub fn put_lower(&mut self, variable: u32, bound: u32) {
        self.0.types.storage.add_lower_bound(TyId(variable), TyId(bound))
    }

    pub fn put_upper(&mut self, variable: u32, bound: u32) {
        self.0.types.storage.add_upper_bound(TyId(variable), TyId(bound))
    }

    pub fn enter(&mut self) {
        self.0.types.storage.enter_level()
    }

    pub fn exit(&mut self) {
        self.0.types.storage.exit_level()
    }

    pub fn set_level(&mut self, variable: u32, level: u32) {
        self.0.types.storage.set_var_level(TyId(variable), level)
    }

    /// Asks, and works at most `limit` steps. Tells the steps too.
    pub fn ask(&mut self, equal: bool, left: u32, right: u32, limit: u32) -> (Answer, u32) {
        let (result, stopped, steps) = self.0.work(equal, TyId(left), TyId(right), Some(limit));
        let (sub, sup) = self.visited().next_back().unwrap_or_default();
        let answer = match result {
            Ok(()) if stopped => Answer::More,
            Ok(()) => Answer::Yes,
            Err(InferenceError::TypeMismatch(types)) => {
                assert_eq!(types.0, *self.0.types.concrete_ref(TyId(sub)));
                assert_eq!(types.1, *self.0.types.concrete_ref(TyId(sup)));
                Answer::Mismatch { sub, sup }
            }
            Err(InferenceError::MissingField { field, .. }) => Answer::Missing { sub, sup, name: field },
            Err(_) => unreachable!(),
        };
        (answer, steps)
    }

    pub fn disjoint(&self, left: u32, right: u32) -> bool {
        let storage = &self.0.types.storage;
        match (storage.get(TyId(left)), storage.get(TyId(right))) {
            (TypeEntry::Concrete(a), TypeEntry::Concrete(b)) => shape_disjoint(a, b),
            _ => false,
        }
    }

    pub fn level(&self) -> u32 {
        self.0.types.storage.current_level
    }

    /// How many entries there are.
    pub fn len(&self) -> u32 {
        self.0.types.storage.len() as u32
    }

    pub fn entry(&self, n: u32) -> Entry<'_> {
        match self.0.types.storage.get(TyId(n)) {
            TypeEntry::Variable(v) => Entry::Variable { level: v.level },
            TypeEntry::Concrete(ty) => match ty {
                Ty::Primitive(p) => Entry::Primitive(prim_no(*p) as u32),
                Ty::List(e) => Entry::List(e.0),
                Ty::Lambda { param, body } => Entry::Lambda(param.0, body.0),
                Ty::AttrSet(set) => Entry::Attrset(Attrset(set)),
                Ty::Named(label, e) => Entry::Named(e.0, label.as_str()),
                Ty::Neg(e) => Entry::Neg(e.0),
                Ty::Inter(a, b) => Entry::Inter(a.0, b.0),
                Ty::Union(a, b) => Entry::Union(a.0, b.0),
                Ty::TyVar(_) | Ty::Frozen(_) => unreachable!(),
            },
        }
    }

    pub fn marked(&self, n: u32) -> bool {
        self.0.types.storage.is_default_marked_param(TyId(n))
    }

    /// The negation that is cached.
    pub fn negation(&self, n: u32) -> Option<u32> {
        self.0.types.neg_cache.get(&TyId(n)).map(|m| m.0)
    }

    /// The lower bounds of an entry, in order; a concrete one has none.
    pub fn lower(&self, n: u32) -> impl ExactSizeIterator<Item = u32> + Clone + '_ {
        let bounds = self.0.types.storage.get_var(TyId(n)).map_or(&[][..], |v| &v.lower_bounds);
        bounds.iter().map(|b| b.0)
    }

    /// The upper ones.
    pub fn upper(&self, n: u32) -> impl ExactSizeIterator<Item = u32> + Clone + '_ {
        let bounds = self.0.types.storage.get_var(TyId(n)).map_or(&[][..], |v| &v.upper_bounds);
        bounds.iter().map(|b| b.0)
    }

    /// In the order of the visits.
    pub fn visited(&self) -> impl ExactSizeIterator<Item = (u32, u32)> + DoubleEndedIterator + Clone + '_ {
        self.0.types.constrain_cache.iter().map(|(a, b)| (a.0, b.0))
    }

    pub fn equals(&self) -> impl ExactSizeIterator<Item = (u32, u32)> + Clone + '_ {
        self.0.types.storage.equiv_pairs.iter().map(|(a, b)| (a.0, b.0))
    }
}
