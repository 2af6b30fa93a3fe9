(* An alarm panel, once per frame pulse. A fault of the antenna, an oscillator out of lock or more clients than the limit raise the
   alarm: the lamp is lit, and an alarm that was not there a pulse ago is counted and logged. *)
type panel = { mutable raised : bool; limit : int; mutable alarms : int }

external fault : unit -> bool = "ANTENNA"
external locked : unit -> bool = "OSCLOCK"
external log : int -> int -> int = "LOG"
external lamp : bool -> int = "LAMP"

let panel panel clients =
  let alarm = fault () || not (locked ()) || clients > panel.limit in
  if alarm && not panel.raised then begin
    panel.alarms <- panel.alarms + 1;
    ignore (log panel.alarms clients)
  end;
  panel.raised <- alarm;
  lamp alarm
