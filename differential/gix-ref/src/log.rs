//! Stand-in: reflogs are left out. The module serves instead as the way in for the oracle to what the crate keeps to
//! itself; nothing is decided here.
use gix_object::bstr::BStr;

use crate::{Category, FullName, FullNameRef, Namespace, PartialNameRef, file};

/// `name::is_pseudo_ref`.
pub fn is_pseudo_ref(name: &BStr) -> bool {
    crate::name::is_pseudo_ref(name)
}

/// The order of full names, for any bytes.
pub fn order(a: &BStr, b: &BStr) -> std::cmp::Ordering {
    FullNameRef::new_unchecked(a).cmp(FullNameRef::new_unchecked(b))
}

/// `PartialNameRef::looks_like_full_name`, for any bytes.
pub fn looks_like_full_name(name: &BStr, consider_pseudo_ref: bool) -> bool {
    PartialNameRef::new_unchecked(name).looks_like_full_name(consider_pseudo_ref)
}

/// `PartialNameRef::construct_full_name_ref`, for any bytes.
pub fn construct_full_name(name: &BStr, inbetween: &str, consider_pseudo_ref: bool) -> crate::bstr::BString {
    let mut buf = Default::default();
    PartialNameRef::new_unchecked(name)
        .construct_full_name_ref(inbetween, &mut buf, consider_pseudo_ref)
        .as_bstr()
        .to_owned()
}

/// `FullNameRef::category_and_short_name`, for any bytes.
pub fn category_and_short_name(name: &BStr) -> Option<(Category<'_>, &BStr)> {
    FullNameRef::new_unchecked(name).category_and_short_name()
}

/// `FullName::strip_namespace`, for any bytes.
pub fn strip_namespace(name: &BStr, namespace: &Namespace) -> FullName {
    let mut name = FullName(name.to_owned());
    name.strip_namespace(namespace);
    name
}

/// `packed::find::transform_full_name_for_lookup`, for any bytes.
pub fn name_in_packed(name: &BStr) -> Option<&BStr> {
    crate::packed::find::transform_full_name_for_lookup(FullNameRef::new_unchecked(name)).map(FullNameRef::as_bstr)
}

/// `Store::to_base_dir_and_relative_name`, not for the reflog, for any bytes.
pub fn route<'a>(store: &file::Store, name: &'a BStr) -> gix_error::Result<(std::path::PathBuf, &'a BStr)> {
    store
        .to_base_dir_and_relative_name(FullNameRef::new_unchecked(name), false)
        .map(|(base, name)| (base.into_owned(), name.as_bstr()))
}

/// `loose::Reference::try_from_path` under a name that is not looked at.
pub fn decode(content: &[u8]) -> gix_error::Result<crate::Target> {
    file::loose::Reference::try_from_path(FullName("HEAD".into()), content, gix_hash::Kind::Sha1).map(|r| r.target)
}
