// Files that a planner saves.
function save(name, type, ...parts) {
  const link = document.createElement('a');
  link.href = URL.createObjectURL(new Blob(parts, {type}));
  link.download = name;
  document.body.append(link);
  link.click();
  link.remove();
  setTimeout(() => URL.revokeObjectURL(link.href), 60000);
}

// A line of a calendar (RFC 5545) has at most 75 bytes, and goes on behind a line end and a space.
function folded(line) {
  const lines = [];
  let last = '', bytes = 0;
  for (const letter of line) {
    const size = new TextEncoder().encode(letter).length;
    if (bytes + size > 74) {
      lines.push(last);
      last = '';
      bytes = 0;
    }
    last += letter;
    bytes += size;
  }
  return [...lines, last].join('\r\n ') + '\r\n';
}

const calendarText = text => text.replace(/[\\;,]/g, '\\$&');
const dayOf = date => date.toISOString().slice(0, 10).replaceAll('-', '');

// The games of a team, or of all teams (team null), as whole days: slot 0 on the first day, each slot so many days later.
function calendarOf(league, games, team, first, step) {
  const now = new Date().toISOString().replace(/[-:]|\.\d+/g, '');
  const lines = ['BEGIN:VCALENDAR', 'VERSION:2.0', 'PRODID:-//robin//season//EN'];
  for (const {home, away, slot} of games.filter(game => team === null || game.home === team || game.away === team)) {
    const day = new Date(`${first}T00:00:00Z`), next = new Date(day);
    day.setUTCDate(day.getUTCDate() + slot * step);
    next.setTime(day.getTime() + 86400000);
    lines.push('BEGIN:VEVENT', `UID:${slot}-${home}-${away}-${first}@robin`, `DTSTAMP:${now}`, `DTSTART;VALUE=DATE:${dayOf(day)}`, `DTEND;VALUE=DATE:${dayOf(next)}`);
    lines.push(`SUMMARY:${calendarText(`${league.labels[home]} - ${league.labels[away]}`)}`, `DESCRIPTION:${calendarText(slotName(league, slot))}`, 'END:VEVENT');
  }
  return [...lines, 'END:VCALENDAR'].map(folded).join('');
}
