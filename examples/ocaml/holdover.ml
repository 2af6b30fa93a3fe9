(* The state machine of an oscillator, once per frame pulse: it warms up, follows its reference, holds over while that is missing, and
   runs free when it has been missing for too long. *)
type state = Warming | Locked | Holdover | Free
type clock = { mutable state : state; mutable since : int; mutable drift : int }

external reference : unit -> bool = "REFER"
external phase : unit -> int = "PHASE"
external steer : int -> int = "STEER"
external alarm : int -> int = "ALARM"

let minute = 25 * 60
let warm_up = 5 * minute
let longest = 24 * 60 * minute
let step = 50

let holdover c =
  let present = reference () in
  c.since <- c.since + 1;
  match c.state with
  | Warming ->
      if present && c.since > warm_up then begin
        c.state <- Locked;
        c.since <- 0
      end;
      0
  | Locked when present ->
      let off = phase () in
      c.drift <- (if off > step then step else if off < -step then -step else off);
      steer c.drift
  | Locked ->
      c.state <- Holdover;
      c.since <- 0;
      alarm 1
  | Holdover when present || c.since > longest ->
      c.state <- (if present then Locked else Free);
      c.since <- 0;
      alarm (if present then 0 else 2)
  | Holdover -> steer c.drift
  | Free ->
      if present then c.state <- Warming;
      c.since <- 0;
      alarm 2
