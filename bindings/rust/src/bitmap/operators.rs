//! The operators of masks. An operator cannot return a refusal: it panics if the method that it calls refuses.

use std::borrow::Borrow;
use std::ops::{BitAnd, BitAndAssign, BitOr, BitOrAssign, BitXor, BitXorAssign, Not, Sub, SubAssign};

use super::Bitmap;
use crate::refusal::{Refusal, RefusedLengths};

impl Bitmap {
    /// Refuses with 5 if the masks differ in length, and says both lengths, which a [`Refusal`] does not: for messages.
    ///
    /// ```
    /// use poruwhina::{Bitmap, RefusedLengths};
    ///
    /// fn allowed(permission: &Bitmap, revocation: &Bitmap) -> Result<Bitmap, RefusedLengths> {
    ///     permission.same_length(revocation)?;
    ///     Ok(permission - revocation)
    /// }
    ///
    /// assert_eq!(allowed(&Bitmap::ones(3).unwrap(), &Bitmap::from([true, false, false])), Ok(Bitmap::from([false, true, true])));
    /// let refused = allowed(&Bitmap::ones(3).unwrap(), &Bitmap::ones(4).unwrap()).unwrap_err();
    /// assert!(refused.to_string().ends_with(": 3 and 4 flags"));
    /// ```
    pub fn same_length(&self, other: &Bitmap) -> Result<(), RefusedLengths> {
        match self.and_not_at(other, 0) {
            Ok(_) | Err(Refusal::OutsideMask) => Ok(()), // the latter without flags: the lengths are checked first
            Err(refusal) => Err(refusal.with_lengths(self.len(), other.len())),
        }
    }
}

/// Implements an operator for masks and borrowed masks on both sides, and its assignment.
macro_rules! operator {
    ($(#[$doc:meta])* $Trait:ident::$operator:ident calls $method:ident, $(#[$assign_doc:meta])* $Assign:ident::$assign:ident) => {
        $(#[$doc])*
        impl $Trait<&Bitmap> for &Bitmap {
            type Output = Bitmap;

            #[track_caller]
            fn $operator(self, rhs: &Bitmap) -> Bitmap {
                match self.$method(rhs) {
                    Ok(mask) => mask,
                    Err(refusal) => panic!("{}", refusal.with_lengths(self.len(), rhs.len())),
                }
            }
        }

        operator!(through $Trait::$operator for Bitmap, &Bitmap);
        operator!(through $Trait::$operator for &Bitmap, Bitmap);
        operator!(through $Trait::$operator for Bitmap, Bitmap);

        $(#[$assign_doc])*
        impl $Assign<&Bitmap> for Bitmap {
            #[track_caller]
            fn $assign(&mut self, rhs: &Bitmap) {
                *self = $Trait::$operator(&*self, rhs);
            }
        }

        /// Does as with a borrowed mask.
        impl $Assign<Bitmap> for Bitmap {
            #[track_caller]
            fn $assign(&mut self, rhs: Bitmap) {
                *self = $Trait::$operator(&*self, &rhs);
            }
        }
    };
    (through $Trait:ident::$operator:ident for $Left:ty, $Right:ty) => {
        /// Does as with two borrowed masks.
        impl $Trait<$Right> for $Left {
            type Output = Bitmap;

            #[track_caller]
            fn $operator(self, rhs: $Right) -> Bitmap {
                $Trait::$operator(Borrow::<Bitmap>::borrow(&self), Borrow::<Bitmap>::borrow(&rhs))
            }
        }
    };
}

operator! {
    /// Combines two masks as [`Bitmap::and`] does.
    ///
    /// # Panics
    /// If the lengths differ, with both lengths.
    ///
    /// ```
    /// use poruwhina::Bitmap;
    ///
    /// let (a, b) = (Bitmap::from([true, true]), Bitmap::from([true, false]));
    /// assert_eq!(&a & &b, Bitmap::from([true, false]));
    /// assert_eq!(a & b, Bitmap::from([true, false]));
    /// ```
    BitAnd::bitand calls and,
    /// Keeps the flags that are set in both masks.
    ///
    /// # Panics
    /// If the lengths differ, with both lengths; the mask is then unchanged.
    ///
    /// ```
    /// use poruwhina::Bitmap;
    ///
    /// let mut mask = Bitmap::from([true, true]);
    /// mask &= &Bitmap::from([true, false]);
    /// assert_eq!(mask, Bitmap::from([true, false]));
    /// ```
    BitAndAssign::bitand_assign
}

operator! {
    /// Combines two masks as [`Bitmap::or`] does.
    ///
    /// # Panics
    /// If the lengths differ, with both lengths.
    ///
    /// ```
    /// use poruwhina::Bitmap;
    ///
    /// assert_eq!(&Bitmap::from([true, false]) | &Bitmap::from([false, false]), Bitmap::from([true, false]));
    /// ```
    BitOr::bitor calls or,
    /// Adds the flags that are set in the other mask.
    ///
    /// # Panics
    /// If the lengths differ, with both lengths; the mask is then unchanged.
    ///
    /// ```
    /// use poruwhina::Bitmap;
    ///
    /// let mut mask = Bitmap::from([true, false]);
    /// mask |= Bitmap::from([false, true]);
    /// assert_eq!(mask, Bitmap::from([true, true]));
    /// ```
    BitOrAssign::bitor_assign
}

operator! {
    /// Combines two masks as [`Bitmap::xor`] does.
    ///
    /// # Panics
    /// If the lengths differ, with both lengths.
    ///
    /// ```
    /// use poruwhina::Bitmap;
    ///
    /// assert_eq!(&Bitmap::from([true, true]) ^ &Bitmap::from([true, false]), Bitmap::from([false, true]));
    /// ```
    BitXor::bitxor calls xor,
    /// Inverts the flags that are set in the other mask.
    ///
    /// # Panics
    /// If the lengths differ, with both lengths; the mask is then unchanged.
    ///
    /// ```
    /// use poruwhina::Bitmap;
    ///
    /// let mut mask = Bitmap::from([true, true]);
    /// mask ^= &Bitmap::from([true, false]);
    /// assert_eq!(mask, Bitmap::from([false, true]));
    /// ```
    BitXorAssign::bitxor_assign
}

operator! {
    /// Takes the flags of the second mask out of the first, as [`Bitmap::and_not`] does: the trucks permitted and not revoked.
    ///
    /// # Panics
    /// If the lengths differ, with both lengths.
    ///
    /// ```
    /// use poruwhina::Bitmap;
    ///
    /// let (permission, revocation) = (Bitmap::from([true, true, false]), Bitmap::from([true, false, false]));
    /// assert_eq!(&permission - &revocation, Bitmap::from([false, true, false]));
    /// ```
    Sub::sub calls and_not,
    /// Takes the flags of the other mask out of this one.
    ///
    /// # Panics
    /// If the lengths differ, with both lengths; the mask is then unchanged.
    ///
    /// ```
    /// use poruwhina::Bitmap;
    ///
    /// let mut allowed = Bitmap::from([true, true, false]);
    /// allowed -= &Bitmap::from([true, false, false]);
    /// assert_eq!(allowed, Bitmap::from([false, true, false]));
    /// ```
    SubAssign::sub_assign
}

/// Inverts each flag, as [`Bitmap::not`] does.
///
/// ```
/// use poruwhina::Bitmap;
///
/// assert_eq!(!&Bitmap::from([true, false]), Bitmap::from([false, true]));
/// ```
impl Not for &Bitmap {
    type Output = Bitmap;

    fn not(self) -> Bitmap {
        Bitmap::not(self)
    }
}

/// Inverts each flag, as [`Bitmap::not`] does.
///
/// ```
/// use poruwhina::Bitmap;
///
/// assert_eq!(!Bitmap::from([true, false]), Bitmap::from([false, true]));
/// ```
impl Not for Bitmap {
    type Output = Bitmap;

    fn not(self) -> Bitmap {
        Bitmap::not(&self)
    }
}
