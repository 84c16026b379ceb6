//! The library itself, through the calls of hosts in Rust.

use crate::calls::Calls;
use crate::fast::FAST;
use crate::law::BY_SETS;

#[cfg(feature = "library")]
mod linked {
    use crate::calls::{
        Calls, ConvertAnswer, FindAnswer, JudgeAnswer, Lent, PatchAnswer, Places, ReadAnswer,
        Tables,
    };
    use patch_box::{Number, Outcome, Quote};

    /// The calls with a limit, or those without one.
    pub struct Library {
        pub limit: Option<usize>,
    }

    fn patch_answer(result: Result<Outcome, Number>) -> PatchAnswer {
        match result {
            Err(number) => PatchAnswer::refused(number.code()),
            Ok(Outcome::None) => PatchAnswer::NONE,
            Ok(Outcome::Patch { triangles, total }) => PatchAnswer { number: 0, triangles, total },
        }
    }

    impl Calls for Library {
        fn name(&self) -> String {
            self.limit.map_or("library".into(), |limit| format!("library within {limit}"))
        }

        fn within(&self, limit: usize) -> Box<dyn Calls> {
            Box::new(Library { limit: Some(limit) })
        }

        fn patch_rim(&self, file: &[u8], tables: &mut Tables) -> PatchAnswer {
            let tables = patch_box::Tables {
                triangles: tables.triangles.table(),
                candidates: tables.candidates.table(),
                weights: tables.weights.table(),
                rows: tables.rows.table(),
                work: tables.work.table(),
            };
            patch_answer(match self.limit {
                None => patch_box::rim(file, tables),
                Some(limit) => patch_box::rim_within(limit, file, tables),
            })
        }

        fn price(&self, n: usize, tables: &mut Tables) -> PatchAnswer {
            let price = patch_box::price(
                n,
                tables.candidates.view(),
                tables.weights.view(),
                tables.rows.view(),
                tables.work.table(),
            );
            match price {
                Err(number) => PatchAnswer::refused(number.code()),
                Ok(Quote::None) => PatchAnswer::NONE,
                Ok(Quote::Total { triangles, total }) => {
                    PatchAnswer { number: 0, triangles, total }
                }
            }
        }

        fn patch(&self, n: usize, agreed: u64, tables: &mut Tables) -> PatchAnswer {
            patch_answer(patch_box::patch(
                n,
                tables.candidates.view(),
                tables.weights.view(),
                tables.rows.view(),
                agreed,
                tables.triangles.table(),
                tables.work.table(),
            ))
        }

        fn judge(&self, n: usize, stated: u64, tables: &mut Tables) -> JudgeAnswer {
            let judged = patch_box::judge(
                n,
                tables.candidates.view(),
                tables.weights.view(),
                tables.rows.view(),
                tables.triangles.view(),
                stated,
                tables.work.table(),
            );
            match judged {
                Err(number) => JudgeAnswer::refused(number.code()),
                Ok(excess) => JudgeAnswer { number: 0, excess },
            }
        }

        fn read_rim(&self, file: &[u8]) -> ReadAnswer {
            let read = match self.limit {
                None => patch_box::read(file),
                Some(limit) => patch_box::read_within(limit, file),
            };
            match read {
                Err(number) => ReadAnswer { number: number.code(), vertices: 0 },
                Ok(vertices) => ReadAnswer { number: 0, vertices },
            }
        }

        fn find_candidates(&self, file: &[u8], tables: &mut Tables) -> FindAnswer {
            let candidates = tables.candidates.table();
            let weights = tables.weights.table();
            let rows = tables.rows.table();
            let found = match self.limit {
                None => patch_box::find(file, candidates, weights, rows),
                Some(limit) => patch_box::find_within(limit, file, candidates, weights, rows),
            };
            match found {
                Err(number) => FindAnswer { number: number.code(), candidates: 0, rows: 0 },
                Ok(patch_box::Found { candidates, rows }) => {
                    FindAnswer { number: 0, candidates, rows }
                }
            }
        }

        fn sizes(&self, file: &[u8]) -> Result<Places, u32> {
            let sizes = match self.limit {
                None => patch_box::sizes(file),
                Some(limit) => patch_box::sizes_within(limit, file),
            };
            let patch_box::Sizes { triangles, candidates, weights, rows, work } =
                sizes.map_err(Number::code)?;
            Ok(Places { triangles, candidates, weights, rows, work })
        }

        fn convert(&self, file: &[u8], out: &mut Lent<u8>) -> ConvertAnswer {
            match patch_box::convert(file, out.table()) {
                Err(number) => ConvertAnswer::refused(number.code()),
                Ok(patch_box::Converted { edition, length }) => {
                    ConvertAnswer { number: 0, edition, length }
                }
            }
        }
    }
}

#[cfg(feature = "library")]
pub fn library() -> Option<&'static dyn Calls> {
    Some(&linked::Library { limit: None })
}

/// The library, where the package is built with it.
#[cfg(not(feature = "library"))]
pub fn library() -> Option<&'static dyn Calls> {
    None
}

/// What the tests judge: the library, and the fast reference where it is not linked.
pub fn under_test() -> &'static dyn Calls {
    library().unwrap_or(&FAST)
}

/// The plain search, the fast reference and what is under test.
pub fn each() -> [&'static dyn Calls; 3] {
    [&BY_SETS, &FAST, under_test()]
}

/// The same three with a limit.
pub fn each_within(limit: usize) -> [Box<dyn Calls>; 3] {
    each().map(|calls| calls.within(limit))
}
