// What the words of the page mean, a line for each, and what the page does not cover.
const WORDS = {
  tables: [
    ['slots of new.img', 'How many instructions the program has that the table becomes. A program has at most 512.'],
    ['QUOTA', 'M:C:L: a ticket of cell C of map M must be below L; - is no quota.'],
    ['VERDICT', '0: the command is authorised. 3: invalid key. 10: not authorised. 12: invalid logical address.'],
  ],
  loads: [
    ['slots', 'The target has four places for a program, 0 to 3. That of slot 3 judges the loads.'],
    ['maps', 'The counters of the node. --maps 5,1p says two maps: one of 5 cells, and one of 1 cell that keeps the greatest number.'],
    ['tickets', 'A cell gives the numbers 0, 1, 2 and so on, one for each command that asks it. A quota 0:0:3 passes tickets 0 to 2 of cell 0 of map 0.'],
    ['initiator and key', 'Who sends the command: the initiator\'s logical address. The key is a byte of the command that anyone on the link can read.'],
    ['every one that no rule names', 'All values that no rule of the table has in this place are judged alike. So the page says them in one line.'],
  ],
  map: [
    ['KIND', 'What the command does: read, write or rmw (read-modify-write); any is all three.'],
    ['KEY', 'The key of the command, in hexadecimal; * is every key.'],
    ['INIT', 'The logical address of the initiator, in hexadecimal; * is every initiator.'],
    ['EXT', 'The extended address: 00 is the first bank, FF the boot window into which programs are loaded.'],
    ['!00', 'Each value except 00. A long set is shown as 00..3B or as 58 values: point at it, or see the table below.'],
    ['·', 'The same word as in the band above.'],
    ['A-B/C-D', 'The first address of the command is in A-B, and its last address is in C-D.'],
    ['verdict', '0: the command is authorised. 3: invalid key. 10: not authorised. 12: invalid logical address.'],
    ['PORT', 'The ports of the target at which the band holds; * is every port.'],
    ['quota', '0:0 < 3: if the ticket of cell 0 of map 0 is below 3, this verdict; else the one below it.'],
  ],
  differences: [
    ['+', 'The new table lets a command pass that the old one did not. It is drawn with a solid frame.'],
    ['-', 'The new table does not let a command pass that the old one did. It is hatched.'],
    ['~', 'The same commands pass. The refusal, or the tickets that are drawn, are others. The frame is dotted.'],
    ['times 3', 'The packet is judged otherwise only when it comes for the third time.'],
    ['unasked', 'No table is asked: a check of the header answers this packet on the node of one bank. With a node\'s file the packets are for that node.'],
    ['draws', 'No number of these packets alone shows it: only the tickets that are drawn are others.'],
  ],
  packets: [
    ['PORT HEX EOP', 'The port at which the packet comes in, its bytes in hexadecimal, and its end marker: EOP, EEP, or PART for a piece.'],
    ['rule N', 'The rule in line N of new.policy decides. Below it is why no rule before it does.'],
    ['status', 'What the target answers: 0 is success, 10 not authorised.'],
  ],
};
const NOT_COVERED = [
  'Programs in other slots: the map is of new.policy only. A command is judged by the slot that PROTOCOL.md names for it.',
  'Tickets that are spent: the map says what each ticket gets. How many tickets a flight has used, only the target knows.',
  'Keys: a key goes over the link in the clear. Who reads the link knows it.',
  'Time: a table has no clock, and says nothing of when a command comes or how long it takes.',
  'Damage: a bit that an upset turns, or a packet that is lost on the link.',
];
