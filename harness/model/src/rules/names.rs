//! The 49 outcomes of the reductions, each in the language of the node that is replaced.

macro_rules! outcomes {
    ($($rule:ident $name:literal,)*) => {
        #[derive(Clone, Copy, Debug, PartialEq, Eq)]
        pub enum Rule { $($rule,)* }

        impl Rule {
            pub const ALL: [Rule; 49] = [$(Rule::$rule,)*];

            pub fn name(self) -> &'static str {
                match self { $(Rule::$rule => $name,)* }
            }

            /// The code of the wrong that the rule makes, with which its name ends; none for the others.
            pub fn code(self) -> Option<u32> {
                self.name().split_once(": wrong ").and_then(|(_, code)| code.parse().ok())
            }
        }
    };
}

outcomes! {
    MlApplication "ML application of a lambda",
    MlFix "ML fix of a lambda",
    MlAdd "ML add, the sum",
    MlAddOver "ML add over 16,777,215: wrong 5",
    MlSubtract "ML subtract",
    MlIf0Zero "ML if0 of 0: the second part",
    MlIf0Other "ML if0 of another number: the third part",
    MlHdCons "ML hd of cons",
    MlHdNil "ML hd of nil: wrong 4",
    MlTlCons "ML tl of cons",
    MlTlNil "ML tl of nil: wrong 4",
    MlNullYes "ML null? of nil: 0",
    MlNullNo "ML null? of cons: 1",
    MsNumber "ms N of a number",
    MsNumberOther "ms N of another value: wrong 1",
    MsListNil "ms {t} of nil",
    MsListCons "ms {t} of cons",
    MsListOther "ms {t} of another value: wrong 3",
    MsFunction "ms (t to u) of a lambda",
    MsFunctionOther "ms (t to u) of another value: wrong 2",
    SchemeApplication "Scheme application of a lambda",
    SchemeApplicationOther "Scheme application of another value: wrong 2",
    SchemeAdd "Scheme add, the sum",
    SchemeAddOver "Scheme add over 16,777,215: wrong 5",
    SchemeAddOther "Scheme add of no number: wrong 1",
    SchemeSubtract "Scheme subtract",
    SchemeSubtractOther "Scheme subtract of no number: wrong 1",
    SchemeIf0Zero "Scheme if0 of 0: the second part",
    SchemeIf0Other "Scheme if0 of another number: the third part",
    SchemeIf0NoNumber "Scheme if0 of no number: wrong 1",
    SchemeHdCons "Scheme hd of cons",
    SchemeHdNil "Scheme hd of nil: wrong 4",
    SchemeHdOther "Scheme hd of another value: wrong 3",
    SchemeTlCons "Scheme tl of cons",
    SchemeTlNil "Scheme tl of nil: wrong 4",
    SchemeTlOther "Scheme tl of another value: wrong 3",
    FunYes "fun? of a lambda: 0",
    FunNo "fun? of another value: 1",
    ListYes "list? of nil or cons: 0",
    ListNo "list? of another value: 1",
    NullYes "null? of nil: 0",
    NullNo "null? of another value: 1",
    NumYes "num? of a number: 0",
    NumNo "num? of another value: 1",
    SmNumber "sm N of a number",
    SmListNil "sm {t} of nil",
    SmListCons "sm {t} of cons",
    SmFunction "sm (t to u) of a lambda",
    SmLump "sm L of ms L, of the same owner",
}

/// How often each outcome was met.
#[derive(Clone, Debug, PartialEq, Eq)]
pub struct RuleCounts([u64; 49]);

impl Default for RuleCounts {
    fn default() -> RuleCounts {
        RuleCounts([0; 49])
    }
}

impl RuleCounts {
    pub fn count(&mut self, rule: Rule) {
        self.0[rule as usize] += 1;
    }

    pub fn of(&self, rule: Rule) -> u64 {
        self.0[rule as usize]
    }

    pub fn join(&mut self, other: &RuleCounts) {
        for (mine, theirs) in self.0.iter_mut().zip(other.0) {
            *mine += theirs;
        }
    }
}
