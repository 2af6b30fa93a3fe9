(* A leap second smeared over a window of frames, once per frame pulse. Within the window the clock's offset rises by the whole
   nanoseconds of a frame, and by one more each time that the parts left over make a whole one; behind the window it stays at a second. *)
type smear = {
  mutable frame : int;  (* of the window, from 0 *)
  frames : int;  (* in the window *)
  whole : int;  (* 1,000,000,000 / frames *)
  over : int;  (* 1,000,000,000 mod frames *)
  mutable parts : int;  (* left over so far *)
  mutable offset : int;  (* nanoseconds *)
}

external leap : unit -> bool = "LEAP"
external steer : int -> int = "STEER"

let smear s =
  if leap () && s.frame < s.frames then begin
    let parts = s.parts + s.over in
    if parts >= s.frames then begin
      s.parts <- parts - s.frames;
      s.offset <- s.offset + s.whole + 1
    end
    else begin
      s.parts <- parts;
      s.offset <- s.offset + s.whole
    end;
    s.frame <- s.frame + 1
  end;
  steer s.offset
