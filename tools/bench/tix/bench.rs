//! A table of tix to make, ask and read within one process. tools/bench/run puts this file into its copy of the oracle, as a module.
use crate::{CheckCtx, InferenceError, TyId};
use lang_ty::{AttrSetTy, Ty};
use smol_str::SmolStr;

pub use lang_ty::PrimitiveTy;

#[derive(Clone)]
pub struct Table(CheckCtx<'static>);

impl Table {
    /// An empty table. Steps are counted only where asked for: tix itself counts under a memory limit alone.
    pub fn new(counted: bool) -> Self {
        let mut table = CheckCtx::new();
        table.rss_limit_mb = counted.then_some(0.0);
        Table(table)
    }

    fn concrete(&mut self, ty: Ty<TyId>) -> u32 {
        self.0.alloc_concrete(ty).0
    }

    pub fn variable(&mut self) -> u32 {
        self.0.types.new_var().0
    }

    pub fn primitive(&mut self, which: PrimitiveTy) -> u32 {
        self.concrete(Ty::Primitive(which))
    }

    pub fn list(&mut self, element: u32) -> u32 {
        self.concrete(Ty::List(TyId(element)))
    }

    pub fn lambda(&mut self, param: u32, body: u32) -> u32 {
        self.concrete(Ty::Lambda { param: TyId(param), body: TyId(body) })
    }

    pub fn union(&mut self, left: u32, right: u32) -> u32 {
        self.concrete(Ty::Union(TyId(left), TyId(right)))
    }

    /// A closed attrset, no field optional.
    pub fn attrset(&mut self, fields: impl Iterator<Item = (String, u32)>) -> u32 {
        let mut attrset = AttrSetTy::new();
        attrset.fields = fields.map(|(name, entry)| (SmolStr::new(name), TyId(entry))).collect();
        self.concrete(Ty::AttrSet(attrset))
    }

    pub fn ask(&mut self, sub: u32, sup: u32) -> Result<(), InferenceError> {
        self.0.op_counter = 0;
        self.0.constrain(TyId(sub), TyId(sup))
    }

    /// The steps of the last question.
    pub fn steps(&self) -> u32 {
        self.0.op_counter
    }

    pub fn entries(&self) -> usize {
        self.0.types.storage.len()
    }

    /// The bounds of an entry that is a variable, lower and upper.
    pub fn bounds(&self, entry: u32) -> Option<[Vec<u32>; 2]> {
        let variable = self.0.types.storage.get_var(TyId(entry))?;
        Some([&variable.lower_bounds, &variable.upper_bounds].map(|bounds| bounds.iter().map(|bound| bound.0).collect()))
    }

    /// The visited pairs, in no order.
    pub fn visited(&self) -> impl Iterator<Item = [u32; 2]> + '_ {
        self.0.types.constrain_cache.iter().map(|(sub, sup)| [sub.0, sup.0])
    }
}
