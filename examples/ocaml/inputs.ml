(* An alarm panel of twelve inputs, once per frame pulse. An input that is too high is counted and logged. Four of them, or a panel that
   was opened, light the lamp; it goes out when none of the twelve is too high. *)
type panel = { mutable high : int; mutable lit : bool }

external level : int -> int = "LEVEL"
external log : int -> int -> int = "LOG"
external is_open : unit -> bool = "OPEN"
external lamp : bool -> int = "LAMP"

let inputs = 12
let limit = 960
let most = 4

let panel p =
  let high = ref 0 in
  for input = 0 to inputs - 1 do
    let now = level input in
    if now > limit then begin
      incr high;
      ignore (log input now)
    end
  done;
  p.high <- !high;
  if !high >= most || is_open () then p.lit <- true;
  if !high = 0 then p.lit <- false;
  lamp p.lit
