(* A leap second smeared over a day of frames, once per frame pulse. While LEAP tells that one is near, the clock's offset rises by the
   whole nanoseconds of a frame, and by one more each time that the parts left over make a whole one. *)
type smear = { mutable frame : int; mutable parts : int; mutable offset : int }

external leap : unit -> bool = "LEAP"
external steer : int -> int = "STEER"

let second = 1_000_000_000
let frames = 25 * 60 * 60 * 24
let whole = second / frames
let over = second mod frames

let smear s =
  if leap () && s.frame < frames then begin
    s.frame <- s.frame + 1;
    s.parts <- s.parts + over;
    if s.parts >= frames then begin
      s.parts <- s.parts - frames;
      s.offset <- s.offset + whole + 1
    end
    else s.offset <- s.offset + whole
  end
  else if s.offset > second then s.offset <- second;
  steer s.offset
