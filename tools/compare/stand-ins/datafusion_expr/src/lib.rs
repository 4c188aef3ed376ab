//! Stand-in for datafusion_expr: the names of the function wrapper in format_string.rs, which is never called.

use arrow::array::ArrayRef;
use arrow::datatypes::{DataType, FieldRef};
use datafusion_common::{Result, ScalarValue};

#[derive(Debug, Clone)]
pub enum ColumnarValue {
    Array(ArrayRef),
    Scalar(ScalarValue),
}

impl ColumnarValue {
    pub fn data_type(&self) -> DataType {
        unimplemented!()
    }
}

pub struct ReturnFieldArgs<'a> {
    pub arg_fields: &'a [FieldRef],
}

pub struct ScalarFunctionArgs {
    pub args: Vec<ColumnarValue>,
}

#[derive(Debug, PartialEq, Eq, Hash)]
pub enum TypeSignature {
    VariadicAny,
}

#[derive(Debug, PartialEq, Eq, Hash)]
pub enum Volatility {
    Immutable,
}

#[derive(Debug, PartialEq, Eq, Hash)]
pub struct Signature(TypeSignature, Volatility);

impl Signature {
    pub fn new(types: TypeSignature, volatility: Volatility) -> Self {
        Self(types, volatility)
    }
}

pub trait ScalarUDFImpl {
    fn name(&self) -> &str;
    fn aliases(&self) -> &[String];
    fn signature(&self) -> &Signature;
    fn return_type(&self, arg_types: &[DataType]) -> Result<DataType>;
    fn return_field_from_args(&self, args: ReturnFieldArgs) -> Result<FieldRef>;
    fn invoke_with_args(&self, args: ScalarFunctionArgs) -> Result<ColumnarValue>;
}
