//! Stands in for the crate landlock 0.4.7 where that is not installed: the public types that exported code uses, with
//! their signatures. They do nothing.

use std::marker::PhantomData;
use std::path::Path;

pub struct BitFlags<T>(PhantomData<T>);

impl<T> BitFlags<T> {
    pub fn of<const N: usize>(_: [T; N]) -> Self {
        BitFlags(PhantomData)
    }
}

pub trait BitFlag {}
impl BitFlag for AccessFs {}
impl BitFlag for AccessNet {}
impl BitFlag for Scope {}

impl<T: BitFlag> From<T> for BitFlags<T> {
    fn from(_: T) -> Self {
        BitFlags(PhantomData)
    }
}

#[macro_export]
macro_rules! make_bitflags {
    ($set:ident::{$($member:ident)|*}) => { $crate::BitFlags::<$set>::of([$($set::$member),*]) };
}

pub enum ABI { V5 }
pub enum CompatLevel { BestEffort }
pub enum AccessFs {
    Execute, WriteFile, ReadFile, ReadDir, RemoveDir, RemoveFile, MakeChar, MakeDir, MakeReg, MakeSock, MakeFifo,
    MakeBlock, MakeSym, Refer, Truncate, IoctlDev,
}
pub enum AccessNet { BindTcp, ConnectTcp }
pub enum Scope { AbstractUnixSocket, Signal }

pub trait HandledAccess {}
impl HandledAccess for AccessFs {}
impl HandledAccess for AccessNet {}

pub trait Access: Sized {
    fn from_all(_: ABI) -> BitFlags<Self> {
        BitFlags(PhantomData)
    }
}
impl Access for AccessFs {}
impl Access for AccessNet {}

#[derive(Debug)]
pub struct RulesetError;
#[derive(Debug)]
pub struct RestrictionStatus;
#[derive(Default)]
pub struct Ruleset;
pub struct RulesetCreated;
pub struct PathFd;
pub struct PathBeneath<F>(PhantomData<F>);
pub struct NetPort;

pub trait Rule<T> {}
impl<F> Rule<AccessFs> for PathBeneath<F> {}
impl Rule<AccessNet> for NetPort {}

impl NetPort {
    pub fn new<A: Into<BitFlags<AccessNet>>>(_: u16, _: A) -> Self {
        NetPort
    }
}

pub fn path_beneath_rules<I, P, A>(paths: I, _: A) -> impl Iterator<Item = Result<PathBeneath<PathFd>, RulesetError>>
where
    I: IntoIterator<Item = P>,
    P: AsRef<Path>,
    A: Into<BitFlags<AccessFs>>,
{
    paths.into_iter().map(|_| Ok(PathBeneath(PhantomData)))
}

pub trait Compatible: Sized {
    fn set_compatibility(self, _: CompatLevel) -> Self {
        self
    }
}
impl Compatible for Ruleset {}
impl Compatible for RulesetCreated {}

pub trait RulesetAttr: Sized {
    fn handle_access<T: Into<BitFlags<U>>, U: HandledAccess>(self, _: T) -> Result<Self, RulesetError> {
        Ok(self)
    }
    fn scope<T: Into<BitFlags<Scope>>>(self, _: T) -> Result<Self, RulesetError> {
        Ok(self)
    }
}
impl RulesetAttr for Ruleset {}

impl Ruleset {
    pub fn create(self) -> Result<RulesetCreated, RulesetError> {
        Ok(RulesetCreated)
    }
}

pub trait RulesetCreatedAttr: Sized {
    fn add_rule<T: Rule<U>, U: HandledAccess>(self, _: T) -> Result<Self, RulesetError> {
        Ok(self)
    }
    fn add_rules<I, T, U, E>(self, _: I) -> Result<Self, E>
    where
        I: IntoIterator<Item = Result<T, E>>,
        T: Rule<U>,
        U: HandledAccess,
        E: From<RulesetError>,
    {
        Ok(self)
    }
    fn log_new_exec(self, _: bool) -> Result<Self, RulesetError> {
        Ok(self)
    }
}
impl RulesetCreatedAttr for RulesetCreated {}

impl RulesetCreated {
    pub fn restrict_self(self) -> Result<RestrictionStatus, RulesetError> {
        Ok(RestrictionStatus)
    }
}
