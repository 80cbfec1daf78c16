/// Builds a [`TreeNode`](crate::TreeNode): a list in brackets, anything else by its `From`.
///
/// ```
/// use sise::{sise_tree, TreeNode};
///
/// let limit = format!("{:.1}", 57.5);
/// let axis = sise_tree!(["axis", "x", ["limit", "-57.5", limit], []]);
/// assert_eq!(axis.index_path(&[2, 2]).unwrap(), "57.5");
/// assert_eq!(axis.index_path(&[3]), Some(&TreeNode::List(Vec::new())));
/// assert_eq!(sise_tree!("x"), TreeNode::Atom("x".into()));
/// ```
#[macro_export]
macro_rules! sise_tree {
    // Items of one token tree each, as strings, names and lists are: no limit to their number.
    ([$($item:tt),* $(,)?]) => {
        $crate::TreeNode::List(::std::vec![$($crate::sise_tree!($item)),*])
    };
    // Other expressions among the items: taken off one by one.
    ([$($items:tt)*]) => {
        $crate::TreeNode::List($crate::sise_tree!(@items [] $($items)*))
    };
    (@items [$($done:expr,)*]) => {
        ::std::vec![$($done),*]
    };
    (@items [$($done:expr,)*] [$($list:tt)*] $(, $($rest:tt)*)?) => {
        $crate::sise_tree!(@items [$($done,)* $crate::sise_tree!([$($list)*]),] $($($rest)*)?)
    };
    (@items [$($done:expr,)*] $item:expr $(, $($rest:tt)*)?) => {
        $crate::sise_tree!(@items [$($done,)* $crate::TreeNode::from($item),] $($($rest)*)?)
    };
    ($item:expr) => {
        $crate::TreeNode::from($item)
    };
}
