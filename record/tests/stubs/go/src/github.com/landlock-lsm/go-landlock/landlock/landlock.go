// Package landlock stands in for go-landlock 0.9.0 where that is not installed: the public types that exported code
// uses, with their signatures. They do nothing.
package landlock

type AccessFSSet uint64
type AccessNetSet uint64
type ScopedSet uint64
type Config struct{}
type Rule interface{ isRule() }
type FSRule struct{}
type NetRule struct{}

var V5 Config

func MustConfig(args ...interface{}) Config                   { return Config{} }
func (c Config) BestEffort() Config                           { return c }
func (c Config) EnableLoggingForSubprocesses() Config         { return c }
func (c Config) Restrict(rules ...Rule) error                 { return nil }
func PathAccess(accessFS AccessFSSet, paths ...string) FSRule { return FSRule{} }
func (r FSRule) IgnoreIfMissing() FSRule                      { return r }
func BindTCP(port uint16) NetRule                             { return NetRule{} }
func ConnectTCP(port uint16) NetRule                          { return NetRule{} }
func (r FSRule) isRule()                                      {}
func (n NetRule) isRule()                                     {}
