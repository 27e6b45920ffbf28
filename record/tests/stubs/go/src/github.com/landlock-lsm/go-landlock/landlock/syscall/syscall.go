// Package syscall stands in for the numbers of go-landlock 0.9.0.
package syscall

const (
	AccessFSExecute = 1 << iota
	AccessFSWriteFile
	AccessFSReadFile
	AccessFSReadDir
	AccessFSRemoveDir
	AccessFSRemoveFile
	AccessFSMakeChar
	AccessFSMakeDir
	AccessFSMakeReg
	AccessFSMakeSock
	AccessFSMakeFifo
	AccessFSMakeBlock
	AccessFSMakeSym
	AccessFSRefer
	AccessFSTruncate
	AccessFSIoctlDev
)

const (
	AccessNetBindTCP = 1 << iota
	AccessNetConnectTCP
)

const (
	ScopeAbstractUnixSocket = 1 << iota
	ScopeSignal
)
