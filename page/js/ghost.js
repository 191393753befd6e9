// What the run before the last edit had, and the run after it hasn't.

const ANY = 255;

/** Whether a packet of one run is that of another, by all that a lane shows of them; `names` has the messages' numbers in the other. */
function isSame(one, line, other, of, names) {
  return one.side[line] === other.side[of] && one.prime[line] === other.prime[of] && one.kind[line] === other.kind[of] &&
    one.fate[line] === other.fate[of] && names[one.message[line]] === other.message[of];
}

/** For each lane the packets of a run that another hasn't at their times. Both lists are in the order of time. */
export function goneFrom(before, run) {
  const names = before.messages.map((name) => run.messageOf.get(name) ?? ANY);
  return before.lanes.map((lane, place) => {
    const packets = run.lanes[place]?.packets ?? [];
    let next = 0;
    return lane.packets.filter((line) => {
      while (next < packets.length && run.at[packets[next]] < before.at[line]) next++;
      for (let at = next; at < packets.length && run.at[packets[at]] === before.at[line]; at++) {
        if (isSame(before, line, run, packets[at], names)) return false;
      }
      return true;
    });
  });
}
