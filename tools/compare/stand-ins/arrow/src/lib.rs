//! Stand-in for arrow: the names that format_string.rs uses. Only `DataType` and its predicates are ever run.

pub mod array {
    use std::fmt::Debug;
    use std::sync::Arc;

    pub trait Array: Debug {
        fn len(&self) -> usize;

        fn is_empty(&self) -> bool {
            self.len() == 0
        }
    }

    pub type ArrayRef = Arc<dyn Array>;

    macro_rules! string_array {
        ($name:ident) => {
            #[derive(Debug)]
            pub struct $name(Vec<Option<String>>);

            impl From<Vec<String>> for $name {
                fn from(texts: Vec<String>) -> Self {
                    Self(texts.into_iter().map(Some).collect())
                }
            }

            impl From<Vec<Option<String>>> for $name {
                fn from(texts: Vec<Option<String>>) -> Self {
                    Self(texts)
                }
            }

            impl Array for $name {
                fn len(&self) -> usize {
                    self.0.len()
                }
            }
        };
    }

    string_array!(StringArray);
    string_array!(LargeStringArray);
    string_array!(StringViewArray);
}

pub mod datatypes {
    use std::fmt;
    use std::sync::Arc;

    #[derive(Debug, Clone, PartialEq, Eq, Hash)]
    pub enum TimeUnit {
        Nanosecond,
    }

    /// The types that the comparison uses, and those that format_string.rs names.
    #[derive(Debug, Clone, PartialEq, Eq, Hash)]
    pub enum DataType {
        Null,
        Boolean,
        Int8,
        Int16,
        Int32,
        Int64,
        UInt8,
        UInt16,
        UInt32,
        UInt64,
        Float64,
        Date32,
        Timestamp(TimeUnit, Option<Arc<str>>),
        Utf8,
        LargeUtf8,
        Utf8View,
    }

    impl DataType {
        pub fn is_integer(&self) -> bool {
            use DataType::*;
            matches!(self, Int8 | Int16 | Int32 | Int64 | UInt8 | UInt16 | UInt32 | UInt64)
        }

        pub fn is_numeric(&self) -> bool {
            self.is_integer() || *self == DataType::Float64
        }

        pub fn is_temporal(&self) -> bool {
            matches!(self, DataType::Date32 | DataType::Timestamp(..))
        }
    }

    impl fmt::Display for DataType {
        fn fmt(&self, f: &mut fmt::Formatter<'_>) -> fmt::Result {
            write!(f, "{self:?}")
        }
    }

    #[derive(Debug)]
    pub struct Field(DataType);

    pub type FieldRef = Arc<Field>;

    impl Field {
        pub fn new(_name: &str, data_type: DataType, _nullable: bool) -> Self {
            Self(data_type)
        }

        pub fn data_type(&self) -> &DataType {
            &self.0
        }
    }
}
