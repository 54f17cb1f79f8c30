//! In the place of the crate `jclassmodel`: the part of its trait that the module calls.
pub mod constant_pool {
    /// Class, name and descriptor of the member at a pool index.
    pub type Info = (String, String, String);

    pub trait ConstantPoolLookup {
        fn get_full_field_info(&self, index: u16) -> Option<Info>;
        fn get_full_method_info(&self, index: u16) -> Option<Info>;
    }
}
