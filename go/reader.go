package capn

import (
	"io"
	"sync/atomic"
)

// Reader reads a stream message by message. It reads no byte after the message that it returns, and doesn't wait for
// one. So if each read of the stream is a system call, put a bufio.Reader between the stream and the Reader.
//
// A Reader is for one goroutine at a time. If Next is called while another Next runs, it returns ErrConcurrent and
// changes nothing. Number, Start and Offset may be called at any time.
type Reader struct {
	read   func([]byte) (int, error)
	limits Limits
	held   []byte
	have   int // how many bytes of the message have come,
	need   int // and how many say more about it
	over   error
	isBusy atomic.Bool
	number atomic.Int64
	start  atomic.Int64
	offset atomic.Int64
}

const (
	count = 4     // bytes by which a frame may be rejected
	head  = 8     // bytes that it has at least
	most  = 65536 // bytes of memory that a frame has that has merely been announced
)

// NewReader returns a reader of a stream that isn't packed. MessageWords of the limits bounds each message, and nothing
// else of a message is checked. If limits is nil, the default limits are taken.
func NewReader(from io.Reader, limits *Limits) *Reader {
	return newReader(func(p []byte) (int, error) { return readOnce(from, p) }, limits)
}

// NewPackedReader returns a reader of a packed stream. It reads no byte after the group in which a message ends.
func NewPackedReader(from io.Reader, limits *Limits) *Reader {
	return newReader((&unpacker{from: from}).Read, limits)
}

func newReader(read func([]byte) (int, error), limits *Limits) *Reader {
	return &Reader{read: read, limits: limitsOf(limits), need: count}
}

// Next returns the next message, with its segment table. The bytes are the caller's.
//
// At the end of the stream, Next returns io.EOF. At the end of a truncated stream, it returns an *Error that is
// io.ErrUnexpectedEOF by errors.Is. An *Error has the Message and its Offset, and ends the stream, since nothing says
// where the next message would begin. Every later call returns the same error again. An error of the io.Reader, such as
// a timeout, is a *ReadError, which also has these two fields. The next call then continues at the same place.
//
// Next doesn't check what is in a message. After a message that a call such as Check rejects, it returns the next one.
func (r *Reader) Next() ([]byte, error) {
	if !r.isBusy.CompareAndSwap(false, true) {
		return nil, ErrConcurrent
	}
	defer r.isBusy.Store(false)
	if r.over != nil {
		return nil, r.over
	}
	for {
		if err := r.fill(); err != nil {
			return nil, r.placed(err)
		}
		status, told := callFirst(r.held[:r.have], r.limits)
		switch Kind(status) {
		case ok:
			message := r.held[:r.have:r.have]
			r.held, r.have, r.need = nil, 0, count
			r.number.Add(1)
			r.start.Store(r.offset.Load())
			r.offset.Add(int64(len(message)))
			return message, nil
		case ErrFrameCut:
			r.need = int(told.length)
		default:
			return nil, r.placed(failure(status, told))
		}
	}
}

// Number returns how many messages Next has returned, which is also the number of the last one.
func (r *Reader) Number() int64 { return r.number.Load() }

// Start returns the offset in the stream of the message that Next returned last, or 0 before the first message. In a
// packed stream, the offset counts the unpacked bytes.
func (r *Reader) Start() int64 { return r.start.Load() }

// Offset returns the offset in the stream at which the next message begins. After an error of Next, this is the offset
// of the rejected message. At the end, it is the length of the stream. In a packed stream, the offset counts the
// unpacked bytes.
func (r *Reader) Offset() int64 { return r.offset.Load() }

// Locate adds the place of the message that Next returned last to an error about this message. For an *Error, such as
// Check returns, it returns a copy with the Message and the Offset. It returns every other error as it is.
func (r *Reader) Locate(err error) error {
	refused, is := err.(*Error)
	if !is {
		return err
	}
	located := *refused
	located.Message, located.Offset = r.Number(), r.Start()
	return &located
}

// fill reads until there are as many bytes as are needed. The memory grows as the bytes come.
func (r *Reader) fill() error {
	wanted := r.need
	if wanted < head {
		wanted = head
	}
	for idle := 0; r.have < r.need; {
		if r.have == len(r.held) {
			size := wanted
			if size > most && size > 2*r.have {
				size = most
				if size < 2*r.have {
					size = 2 * r.have
				}
			}
			r.held = append(make([]byte, 0, size), r.held[:r.have]...)[:size]
		}
		end := len(r.held)
		if end > wanted {
			end = wanted
		}
		came, err := r.read(r.held[r.have:end])
		r.have += came
		switch {
		case err == io.EOF && r.have < r.need:
			if r.have == 0 {
				r.over = io.EOF
				return io.EOF
			}
			return &Error{Kind: ErrFrameCut}
		case err != nil && err != io.EOF && r.have < r.need:
			return err
		case came == 0:
			if idle++; idle == 100 {
				return &ReadError{Err: io.ErrNoProgress}
			}
		}
	}
	return nil
}

// placed is an error with the place of the message that was being read. An error of the stream is kept, since it ends
// it, and so is an impossible count. The others may be gone at the next call.
func (r *Reader) placed(err error) error {
	message, offset := r.number.Load()+1, r.offset.Load()
	switch e := err.(type) {
	case *Error:
		e.Message, e.Offset = message, offset
		r.over = e
	case *ReadError:
		e.Message, e.Offset = message, offset
		if e.Err == ErrBadReadCount {
			r.over = e
		}
	}
	return err
}
