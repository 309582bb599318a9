// Package castd is a client of castd, the group communication daemon.
//
// The commands of a session stand in one queue, in the order of the calls, and only the first is at the daemon. A cast
// or pass that the daemon refuses for now (Flushing, OwnAbcast, HeldFull) stays first and is sent again. A cast that
// was done is delivered to its sender too, unless the sender leaves, is ejected or ends first. One that failed, but not
// with MayBeDone, was not cast, and may be cast again.
//
// A session receives in the background, until 1,024 pushes wait for Read and no call waits. It leaves the others to the
// daemon, which closes it with Slow if they are too many.
package castd

import (
	"bufio"
	"context"
	"encoding/binary"
	"errors"
	"fmt"
	"net"
	"sync"
	"syscall"
	"time"
)

// MostPayload is the most bytes of a payload.
const MostPayload = 16_384

const (
	mostFrame, mostMembers, mostKept = 20_000, 64, 1_024
	// A command that was refused for now is sent again after this time at the latest.
	pause = 20 * time.Millisecond
)

// A Process is one connection of a program. Both numbers are at least 1.
type Process struct {
	Site   uint16
	Serial uint32
}

func (p Process) String() string { return fmt.Sprintf("%d.%d", p.Site, p.Serial) }

// A Kind says how a message is cast: in causal order, or also in one order at all members.
type Kind uint8

const Causal, Atomic Kind = 1, 2

// A Code is what a command was answered, or why a session was closed. As an error it is a refusal: nothing was done.
type Code uint8

const (
	Done, BadFrame, NotOpen, TooManySessions    Code = 0, 1, 2, 3
	NoGroup, NotMember, AlreadyMember, Flushing Code = 4, 5, 6, 7
	OwnAbcast, HeldFull, TooLong, NotHolder     Code = 8, 9, 10, 11
	Slow, Halted, GroupFull, OutOfRange         Code = 12, 13, 14, 15
)

var names = [...]string{"Done", "BadFrame", "NotOpen", "TooManySessions", "NoGroup", "NotMember", "AlreadyMember",
	"Flushing", "OwnAbcast", "HeldFull", "TooLong", "NotHolder", "Slow", "Halted", "GroupFull", "OutOfRange"}

func (c Code) String() string {
	if int(c) < len(names) {
		return names[c]
	}
	return fmt.Sprint(uint8(c))
}

func (c Code) Error() string { return c.String() }

// ErrEnded and ErrBadFrame tell why a session is over: its stream ended, or the daemon sent what it never sends.
var ErrEnded, ErrBadFrame = errors.New("the session ended"), errors.New("the daemon sent a wrong frame")

// An Error is why a call failed that was not refused. It wraps ErrEnded, ErrBadFrame, or the error of the context.
type Error struct {
	Why       error
	Code      Code // That of Closed, if it came.
	MayBeDone bool
}

func (e *Error) Error() string {
	text := e.Why.Error()
	if e.Code != Done {
		text += ": " + e.Code.String()
	}
	if e.MayBeDone {
		text += "; the command may be done"
	}
	return text
}

func (e *Error) Unwrap() error { return e.Why }

// A Command is what Send gives: a Join, Leave, Cast or Pass.
type Command struct {
	kind    byte
	group   uint16
	rest    []byte
	isRight bool
}

// Join asks for membership in a group.
func Join(group uint16) Command { return Command{1, group, nil, true} }

// Leave leaves a group at once.
func Leave(group uint16) Command { return Command{2, group, nil, true} }

// Cast casts a copy of the payload to a group.
func Cast(group uint16, kind Kind, payload []byte) Command {
	return Command{3, group, append([]byte{byte(kind)}, payload...), kind == Causal || kind == Atomic}
}

// Pass hands the token of a group to another member.
func Pass(group uint16, to Process) Command {
	rest := make([]byte, 6)
	binary.BigEndian.PutUint16(rest, to.Site)
	binary.BigEndian.PutUint32(rest[2:], to.Serial)
	return Command{4, group, rest, to.Site > 0 && to.Serial > 0}
}

// Encode returns the frame of the command. It fails with TooLong, or with OutOfRange where a number is.
func (c Command) Encode(tag uint32) ([]byte, error) {
	if len(c.rest) > 1+MostPayload {
		return nil, TooLong
	}
	if c.group == 0 || !c.isRight {
		return nil, OutOfRange
	}
	frame := make([]byte, 11, 11+len(c.rest))
	binary.BigEndian.PutUint32(frame, uint32(cap(frame)))
	frame[4] = c.kind
	binary.BigEndian.PutUint32(frame[5:], tag)
	binary.BigEndian.PutUint16(frame[9:], c.group)
	return append(frame, c.rest...), nil
}

// A Push is what the daemon tells: Opened, Reply, View, Deliver, Ejected, Denied or Closed.
type Push interface{ read(f *fields) Push }

type (
	Opened struct{ Process Process } // The own process. This comes first.
	Closed struct{ Code Code }       // This comes last.
	Reply  struct {                  // The final answer to the command with this tag.
		Tag  uint32
		Code Code
	}
	View struct { // A view of a group. Its members rise. The holder has the token at first; without members it is 0.0.
		Group   uint16
		View    uint32
		Members []Process
		Holder  Process
	}
	Deliver struct { // A message of a process, whose count rises with each in the view.
		Group       uint16
		View, Count uint32
		Process     Process
		Kind        Kind
		Payload     []byte
	}
	Ejected struct { // The own process is no longer a member, and may join again.
		Group uint16
		View  uint32
	}
	Denied struct { // The join was refused.
		Group uint16
		Code  Code
	}
)

var pushes = [...]Push{Opened{}, Reply{}, View{}, Deliver{}, Ejected{}, Denied{}, Closed{}}

func (Opened) read(f *fields) Push  { return Opened{f.process()} }
func (Closed) read(f *fields) Push  { return Closed{f.code(BadFrame)} }
func (Reply) read(f *fields) Push   { return Reply{f.number(4, 0, 1<<32-1), f.code(Done)} }
func (Ejected) read(f *fields) Push { return Ejected{f.short(), f.word()} }
func (Denied) read(f *fields) Push  { return Denied{f.short(), f.code(BadFrame)} }

func (View) read(f *fields) Push {
	it := View{Group: f.short(), View: f.word(), Members: make([]Process, f.number(1, 0, mostMembers))}
	for last, i := (Process{}), 0; i < len(it.Members); i++ {
		next := f.process()
		f.isWrong = f.isWrong || last.Site > next.Site || last.Site == next.Site && last.Serial >= next.Serial
		it.Members[i], last = next, next
	}
	if len(it.Members) > 0 {
		it.Holder = it.Members[f.number(1, 0, uint32(len(it.Members)-1))]
	}
	return it
}

func (Deliver) read(f *fields) Push {
	it := Deliver{Group: f.short(), View: f.word(), Process: f.process(), Count: f.word(), Kind: Kind(f.number(1, 1, 2))}
	it.Payload, f.rest = append(it.Payload, f.rest...), nil
	f.isWrong = f.isWrong || len(it.Payload) > MostPayload
	return it
}

// The fields of a frame that are still to be read, and whether one was missing or out of range.
type fields struct {
	rest    []byte
	isWrong bool
}

// number reads a number of so many bytes. It is the least where it is wrong.
func (f *fields) number(size int, least, most uint32) (number uint32) {
	if f.isWrong = f.isWrong || len(f.rest) < size; !f.isWrong {
		for _, digit := range f.rest[:size] {
			number = number<<8 | uint32(digit)
		}
		f.rest, f.isWrong = f.rest[size:], number < least || number > most
	}
	if f.isWrong {
		return least
	}
	return number
}

func (f *fields) short() uint16        { return uint16(f.number(2, 1, 1<<16-1)) }
func (f *fields) word() uint32         { return f.number(4, 1, 1<<32-1) }
func (f *fields) process() Process     { return Process{f.short(), f.word()} }
func (f *fields) code(least Code) Code { return Code(f.number(1, uint32(least), uint32(OutOfRange))) }

// Decode returns the push at the front of these bytes, and how many of them it has. It is nil where more must come.
func Decode(bytes []byte) (Push, int, error) {
	f := fields{rest: bytes}
	length := int(f.number(4, 5, mostFrame))
	switch {
	case len(bytes) < 4 || !f.isWrong && len(bytes) < length:
		return nil, 0, nil
	case !f.isWrong:
		f.rest = bytes[4:length]
	}
	push := pushes[f.number(1, 65, 71)-65].read(&f)
	if f.isWrong || len(f.rest) > 0 {
		return nil, 0, ErrBadFrame
	}
	return push, length, nil
}

// A Session is one connection to a domain, which is one process of it. Any goroutine may make any call. A call fails
// with an Error where its context ends first. The pushes that come while calls wait are kept for Read.
type Session struct {
	conn    *net.UnixConn
	running sync.WaitGroup
	mutex   sync.Mutex
	changed chan struct{} // Closed, and made anew, when something below may have changed.
	process Process
	kept    []Push
	queue   []*pending
	due     time.Time // When the first command may be sent.
	joins   map[uint16]*pending
	calls   int
	tag     uint32
	over    *Error
}

// A pending command is in the queue, or is a join that waits for its View.
type pending struct {
	Command
	tag     uint32
	frame   []byte
	isCall  bool
	isSent  bool // It is at the daemon, and has no answer.
	refused Code // Its last answer, where it is to be sent again.
	isOver  bool // Nobody waits for it.
	view    View
	err     error
}

func (p *pending) end(view View, err error) {
	if p != nil && !p.isOver {
		p.isOver, p.view, p.err = true, view, err
	}
}

// Connect connects to the socket of a domain. It fails with TooManySessions or Halted where that takes no session.
func Connect(ctx context.Context, path string) (*Session, error) {
	conn, err := new(net.Dialer).DialContext(ctx, "unix", path)
	for errors.Is(err, syscall.EAGAIN) && ctx.Err() == nil {
		time.Sleep(pause) // Too many programs wait to be connected.
		conn, err = new(net.Dialer).DialContext(ctx, "unix", path)
	}
	if err != nil && ctx.Err() != nil {
		err = &Error{Why: ctx.Err()}
	}
	if err != nil {
		return nil, err
	}
	s := &Session{conn: conn.(*net.UnixConn), changed: make(chan struct{}), joins: map[uint16]*pending{}}
	s.running.Add(1)
	go s.receive()
	first, err := s.Read(ctx)
	switch first := first.(type) {
	case Opened:
		s.mutex.Lock()
		defer s.mutex.Unlock()
		s.kept = append([]Push{first}, s.kept...)
		return s, nil
	case Closed:
		err = first.Code
	}
	s.Close()
	return nil, err
}

// Process is the own process.
func (s *Session) Process() Process { return s.process }

// Join joins a group. It returns the view that begins the membership, which Read gives too. A join that is denied later
// fails with the code of that.
func (s *Session) Join(ctx context.Context, group uint16) (View, error) {
	it := s.call(ctx, Join(group))
	return it.view, it.err
}

// Leave leaves a group at once.
func (s *Session) Leave(ctx context.Context, group uint16) error {
	return s.call(ctx, Leave(group)).err
}

// Cast casts a payload in causal order.
func (s *Session) Cast(ctx context.Context, group uint16, payload []byte) error {
	return s.call(ctx, Cast(group, Causal, payload)).err
}

// Abcast casts a payload in the one order of all members.
func (s *Session) Abcast(ctx context.Context, group uint16, payload []byte) error {
	return s.call(ctx, Cast(group, Atomic, payload)).err
}

// Pass hands the token to another member.
func (s *Session) Pass(ctx context.Context, group uint16, to Process) error {
	return s.call(ctx, Pass(group, to)).err
}

// Send puts a command into the queue, and does not wait. Read gives its final Reply, which bears the tag.
func (s *Session) Send(command Command) (tag uint32, err error) {
	defer s.lock()()
	it := s.put(command, false)
	return it.tag, it.err
}

// Read returns the next push. Once the session is over, and all its pushes are read, it fails with what ended it.
func (s *Session) Read(ctx context.Context) (Push, error) {
	defer s.lock()()
	err := s.wait(ctx, func() bool { return len(s.kept) > 0 || s.over != nil })
	if len(s.kept) == 0 && s.over != nil {
		err = s.over
	}
	if err != nil {
		return nil, err
	}
	push := s.kept[0]
	s.kept[0], s.kept = nil, s.kept[1:]
	return push, nil
}

// Close ends the session, and with it all calls.
func (s *Session) Close() error {
	unlock := s.lock()
	s.end(ErrEnded, Done)
	unlock()
	s.running.Wait()
	return nil
}

// lock locks the mutex. What it returns unlocks it, after all has moved on that can.
func (s *Session) lock() func() {
	s.mutex.Lock()
	return func() {
		s.move()
		close(s.changed)
		s.changed = make(chan struct{})
		s.mutex.Unlock()
	}
}

// wait waits until something holds. The mutex is locked, but not while it waits.
func (s *Session) wait(ctx context.Context, holds func() bool) error {
	for !holds() {
		if ctx.Err() != nil {
			return &Error{Why: ctx.Err()}
		}
		changed := s.changed
		s.mutex.Unlock()
		select {
		case <-changed:
		case <-ctx.Done():
		}
		s.mutex.Lock()
	}
	return nil
}

// put puts a command into the queue.
func (s *Session) put(command Command, isCall bool) *pending {
	it := &pending{Command: command, tag: s.tag + 1, isCall: isCall}
	if it.frame, it.err = command.Encode(it.tag); s.over != nil {
		it.err = s.over
	}
	if it.isOver = it.err != nil; !it.isOver {
		s.tag, s.queue = it.tag, append(s.queue, it)
	}
	return it
}

// call has a command done. It leaves the queue where the context ends first, unless it is at the daemon.
func (s *Session) call(ctx context.Context, command Command) *pending {
	if ctx.Err() != nil {
		return &pending{err: &Error{Why: ctx.Err()}}
	}
	unlock := s.lock()
	it := s.put(command, true)
	s.calls++
	unlock()
	defer s.lock()()
	if err := s.wait(ctx, func() bool { return it.isOver }); err != nil {
		late := &Error{Why: ctx.Err(), MayBeDone: it.isSent || s.joins[it.group] == it}
		if err = late; it.refused != Done && !late.MayBeDone {
			err = it.refused
		}
		it.end(View{}, err)
	}
	s.calls--
	return it
}

// move sends the first command, if that is due.
func (s *Session) move() {
	for len(s.queue) > 0 && s.queue[0].isOver && !s.queue[0].isSent {
		s.queue, s.due = s.queue[1:], time.Time{}
	}
	if s.over != nil || len(s.queue) == 0 || s.queue[0].isSent || time.Now().Before(s.due) {
		return
	}
	s.queue[0].isSent = true
	s.running.Add(1)
	go s.write(s.queue[0].frame)
}

func (s *Session) write(frame []byte) {
	defer s.running.Done()
	if _, err := s.conn.Write(frame); err != nil {
		s.conn.CloseRead() // What has come can still be read. Then the stream ends.
	}
}

// receive takes what comes until the session is over.
func (s *Session) receive() {
	defer s.running.Done()
	input := bufio.NewReaderSize(s.conn, 1<<16)
	for goesOn := true; goesOn; {
		come, _ := input.Peek(input.Buffered())
		push, length, err := Decode(come)
		if push == nil && err == nil {
			if _, err = input.Peek(len(come) + 1); err == nil {
				continue
			}
			err = ErrEnded
		}
		input.Discard(length)
		goesOn = s.take(push, err)
	}
}

// take does what a push says, once there is room to keep it, or ends the session. It returns whether to go on.
func (s *Session) take(push Push, err error) bool {
	defer s.lock()()
	s.wait(context.Background(), func() bool { return len(s.kept) < mostKept || s.calls > 0 || s.over != nil })
	_, isOpened := push.(Opened)
	if _, isClosed := push.(Closed); err == nil && isOpened == (s.process.Site > 0) && !isClosed {
		err = ErrBadFrame
	}
	if err != nil {
		s.end(err, Done)
	}
	if s.over != nil {
		return false
	}
	switch push := push.(type) {
	case Opened:
		s.process = push.Process
	case Reply:
		s.answer(push)
		return true
	case View:
		s.due = time.Time{}
		for _, member := range push.Members {
			if member == s.process {
				s.joins[push.Group].end(push, nil)
			}
		}
	case Ejected:
		s.due = time.Time{}
	case Deliver:
		if push.Kind == Atomic && push.Process == s.process {
			s.due = time.Time{}
		}
	case Denied:
		s.joins[push.Group].end(View{}, push.Code)
	case Closed:
		s.end(ErrEnded, push.Code)
	}
	s.kept = append(s.kept, push)
	return true
}

// answer takes the answer to the first command.
func (s *Session) answer(reply Reply) {
	if len(s.queue) == 0 || !s.queue[0].isSent || s.queue[0].tag != reply.Tag {
		s.end(ErrBadFrame, Done)
		return
	}
	it := s.queue[0]
	it.isSent = false
	if it.kind >= 3 && reply.Code >= Flushing && reply.Code <= HeldFull {
		it.refused, s.due = reply.Code, time.Now().Add(pause)
		time.AfterFunc(pause, func() { s.lock()() })
		return
	}
	s.queue, s.due = s.queue[1:], time.Time{}
	switch {
	case !it.isCall:
		s.kept = append(s.kept, reply)
	case reply.Code != Done:
		it.end(View{}, reply.Code)
	case it.kind == 1:
		s.joins[it.group] = it
	default:
		it.end(View{}, nil)
	}
	if it.kind == 2 && reply.Code == Done {
		s.joins[it.group].end(View{}, NotMember)
	}
}

// end ends the session, and all that is waited for.
func (s *Session) end(why error, code Code) {
	if s.over != nil {
		return
	}
	s.over = &Error{Why: why, Code: code}
	for _, it := range s.queue {
		it.end(View{}, &Error{why, code, it.isSent})
	}
	for _, it := range s.joins {
		it.end(View{}, &Error{why, code, true})
	}
	s.conn.Close()
}
