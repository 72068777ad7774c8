//! Stand-in for the crate `object_store`: a path is its string, and nothing is normalised.

pub mod path {
    #[derive(Clone, PartialEq, Eq, PartialOrd, Ord, Hash, Debug, Default)]
    pub struct Path(String);

    impl From<String> for Path {
        fn from(path: String) -> Self {
            Path(path)
        }
    }

    impl From<Path> for String {
        fn from(path: Path) -> Self {
            path.0
        }
    }
}
