// The line tool of castd: commands in, pushes out. With --vectors it computes what stands in clients/vectors.
package main

import (
	"bufio"
	"context"
	"encoding/hex"
	"errors"
	"fmt"
	"io"
	"os"
	"strconv"
	"strings"
	"time"

	"castd"
)

const usage = "usage: castd-client SOCKET\n       castd-client --vectors"

// A session receives in the background. What comes within this time counts as there already.
const already = 10 * time.Millisecond

func main() {
	if len(os.Args) != 2 {
		fmt.Fprintln(os.Stderr, usage)
		os.Exit(2)
	}
	var err error
	switch os.Args[1] {
	case "--help":
		_, err = fmt.Println(usage)
	case "--vectors":
		err = eachLine(compute)
	default:
		err = talk(os.Args[1])
	}
	if err != nil {
		fmt.Fprintln(os.Stderr, "castd-client:", err)
		os.Exit(1)
	}
}

// eachLine takes the lines of the input, without their ends.
func eachLine(take func(line string) error) error {
	input := bufio.NewReader(os.Stdin)
	for {
		line, err := input.ReadString('\n')
		if err != nil && line == "" {
			if errors.Is(err, io.EOF) {
				return nil
			}
			return err
		}
		if err := take(strings.TrimSuffix(line, "\n")); err != nil {
			return err
		}
	}
}

// talk connects, and does what the lines of the input say, up to the end of the input or of the session.
func talk(path string) error {
	session, err := castd.Connect(context.Background(), path)
	if err != nil {
		return err
	}
	defer session.Close()
	if err = show(session, already); err == nil {
		err = eachLine(func(line string) error { return obey(session, line) })
	}
	if errors.Is(err, castd.ErrEnded) {
		return nil
	}
	return err
}

// obey does what a line says.
func obey(session *castd.Session, line string) error {
	command, joined, isCommand := commandOf(line)
	span, isSpan := spanOf(line)
	var err error
	switch {
	case isCommand:
		err = give(session, command, joined)
	case isSpan:
		err = show(session, span)
	case line != "":
		complain(line)
	}
	if err != nil {
		return err
	}
	return show(session, already)
}

func complain(line string) { fmt.Fprintf(os.Stderr, "unknown: %s\n", line) }

// give gives a command, and prints what is pushed up to its end. Of a join it names the group, which is 0 otherwise.
func give(session *castd.Session, command castd.Command, joined uint16) error {
	tag, err := session.Send(command)
	for isOver := false; err == nil && !isOver; {
		var push castd.Push
		if push, err = print(context.Background(), session); err != nil {
			return err
		}
		switch push := push.(type) {
		case castd.Reply:
			isOver = push.Tag == tag && (joined == 0 || push.Code != castd.Done)
		case castd.View:
			isOver = push.Group == joined && contains(push.Members, session.Process())
		case castd.Denied:
			isOver = push.Group == joined
		}
	}
	return err
}

func contains(members []castd.Process, process castd.Process) bool {
	for _, member := range members {
		if member == process {
			return true
		}
	}
	return false
}

// show prints what is pushed within a time.
func show(session *castd.Session, span time.Duration) error {
	ctx, cancel := context.WithTimeout(context.Background(), span)
	defer cancel()
	for {
		if _, err := print(ctx, session); errors.Is(err, context.DeadlineExceeded) {
			return nil
		} else if err != nil {
			return err
		}
	}
}

// print prints the next push.
func print(ctx context.Context, session *castd.Session) (castd.Push, error) {
	push, err := session.Read(ctx)
	if err == nil {
		_, err = fmt.Println(lineOf(push))
	}
	return push, err
}

// spanOf is the time of a line such as `wait 0.5`.
func spanOf(line string) (time.Duration, bool) {
	word, rest, _ := strings.Cut(line, " ")
	seconds, err := strconv.ParseFloat(rest, 64)
	isSpan := word == "wait" && err == nil && seconds >= 0 && seconds <= time.Duration(1<<63-1).Seconds()/2
	return time.Duration(seconds * float64(time.Second)), isSpan
}

// commandOf is the command of a line such as `cast 1 hello`, and the group that it joins.
func commandOf(line string) (command castd.Command, joined uint16, isRight bool) {
	words := strings.SplitN(line, " ", 3)
	if len(words) < 2 {
		return command, 0, false
	}
	number, isRight := numberOf(words[1], 16)
	group, text := uint16(number), strings.Join(words[2:], "")
	switch {
	case words[0] == "join" && len(words) == 2:
		command, joined = castd.Join(group), group
	case words[0] == "leave" && len(words) == 2:
		command = castd.Leave(group)
	case words[0] == "cast":
		command = castd.Cast(group, castd.Causal, []byte(text))
	case words[0] == "abcast":
		command = castd.Cast(group, castd.Atomic, []byte(text))
	case words[0] == "pass":
		command = castd.Pass(group, processOf(text))
	}
	_, err := command.Encode(0)
	return command, joined, isRight && err == nil
}

// numberOf reads a number in its one spelling: without signs and leading zeros.
func numberOf(text string, bits int) (uint64, bool) {
	number, err := strconv.ParseUint(text, 10, bits)
	return number, err == nil && strconv.FormatUint(number, 10) == text
}

// processOf is the process of a text such as `2.1`; 0.0 where it names none.
func processOf(text string) castd.Process {
	before, behind, _ := strings.Cut(text, ".")
	site, isSite := numberOf(before, 16)
	serial, isSerial := numberOf(behind, 32)
	if !isSite || !isSerial {
		return castd.Process{}
	}
	return castd.Process{Site: uint16(site), Serial: uint32(serial)}
}

// lineOf is a push as one line.
func lineOf(push castd.Push) string {
	switch push := push.(type) {
	case castd.Opened:
		return fmt.Sprintf("opened %v", push.Process)
	case castd.Reply:
		return fmt.Sprintf("reply %d %s", push.Tag, codeOf(push.Code))
	case castd.View:
		words := []string{fmt.Sprintf("view %d %d", push.Group, push.View)}
		if len(push.Members) > 0 {
			words = append(words, "holder", push.Holder.String())
		}
		words = append(words, "members")
		for _, member := range push.Members {
			words = append(words, member.String())
		}
		return strings.Join(words, " ")
	case castd.Deliver:
		kind := map[castd.Kind]string{castd.Causal: "causal", castd.Atomic: "atomic"}[push.Kind]
		line := fmt.Sprintf("deliver %d/%d/%v/%d %s", push.Group, push.View, push.Process, push.Count, kind)
		if len(push.Payload) > 0 {
			line += " " + shown(push.Payload)
		}
		return line
	case castd.Ejected:
		return fmt.Sprintf("ejected %d %d", push.Group, push.View)
	case castd.Denied:
		return fmt.Sprintf("denied %d %s", push.Group, codeOf(push.Code))
	case castd.Closed:
		return "closed " + codeOf(push.Code)
	}
	return ""
}

// codeOf is the number of a code, and its name where it is a refusal.
func codeOf(code castd.Code) string {
	if code == castd.Done {
		return "0"
	}
	return fmt.Sprintf("%d %v", uint8(code), code)
}

// shown is a payload on one line.
func shown(payload []byte) string {
	var text strings.Builder
	for _, it := range payload {
		if it < 32 || it == 127 || it == '\\' {
			fmt.Fprintf(&text, "\\x%02x", it)
		} else {
			text.WriteByte(it)
		}
	}
	return text.String()
}

// compute prints a line of clients/vectors with what is computed here behind its equals sign.
func compute(line string) error {
	sign := strings.LastIndex(line, " = ")
	if line == "" || line[0] == '#' {
		return nil
	}
	if sign < 0 {
		complain(line)
		return nil
	}
	left := line[:sign]
	right, isRight := computed(left)
	if !isRight {
		complain(line)
		return nil
	}
	_, err := fmt.Printf("%s = %s\n", left, right)
	return err
}

func computed(left string) (string, bool) {
	word, rest, _ := strings.Cut(left, " ")
	if word == "push" {
		bytes, err := hex.DecodeString(strings.ReplaceAll(rest, " ", ""))
		push, _, fault := castd.Decode(bytes)
		switch {
		case fault != nil:
			return "fault", err == nil
		case push == nil:
			return "more", err == nil
		}
		return lineOf(push), err == nil
	}
	number, line, _ := strings.Cut(rest, " ")
	tag, isTag := numberOf(number, 32)
	command, _, isCommand := commandOf(line)
	frame, _ := command.Encode(uint32(tag))
	return hex.EncodeToString(frame), word == "command" && isTag && isCommand
}
