(* Reads a sensor. Over its limit, or with the panel armed and the door open, the alarm sounds, and the panel keeps what it answers;
   otherwise the panel is armed, and 2 is told. *)
type panel = {
  mutable armed : bool;
  mutable sounded : int;
  limit : int;
  closed : bool;
  mutable level : int;
  mutable answer : int;
}

external read : int -> int = "READ"
external sound : int -> int -> int = "SOUND"
external log : int -> int -> int -> int = "LOG"

let alarm panel sensor =
  let level = read sensor in
  panel.level <- level;
  if level > panel.limit || (panel.armed && not panel.closed) then begin
    panel.answer <- sound level 3;
    panel.sounded <- panel.sounded + 1;
    log sensor level (-1)
  end
  else begin
    panel.armed <- true;
    2
  end
