/** The examples by topic, each with its title and what it shows. @type {[string, Record<string, [string, string]>][]} */
export const TOPICS = [
  ["Apollo 11", {
    "landing-1202": ["A landing, and alarm 1202", "Guidance, a display and a radar ask for more time than there is. The tour shows this one."],
    "apollo-11": ["Apollo 11: five alarms", "The alarms of the descent, within two seconds of the times flown. Three of its numbers were chosen to give just that."],
    landing: ["When does the first alarm come?", "The radar steals less here. Change the numbers, and find the limit."] }],
  ["Too much work, or in the wrong order", {
    "jobs-faster-than-they-end": ["Jobs come faster than they end", "Each pass begins two jobs, and only one ends before the next pass."],
    "jobs-faster-with-eight-sets": ["The same, with an eighth core set", "The alarm comes one pass later. Nothing more is gained."],
    "sleepers-take-core-sets": ["Sleepers take core sets", "Three jobs sleep, each in a core set of its own: so there is less room for the others."],
    "still-too-late": ["90 %, and still too late", "No table fills up, and every second steering job misses its deadline."] }],
  ["Other tables that fill up", {
    "no-vac-area": ["A key pressed too often: alarm 1201", "Each press begins a job with a VAC area, a larger work area, and there are only five."],
    "waitlist-full": ["The Waitlist is full: alarm 1203", "Nine tasks wait, as many as there is room for, and one more comes."],
    "task-lists-itself": ["A task that lists itself again", "It is listed once. From then on the timer runs it every three centiseconds."] }],
  ["Restarts", {
    "comes-back-after-an-alarm": ["What survives an alarm", "Jobs without a phase are forgotten. What a group's phase names begins again."],
    "power-up-with-a-broken-pair": ["Power back, with a broken pair", "The phases can't be trusted, so nothing begins again: alarm 1107."] }],
  ["Two workers, many orders", {
    race: ["Two workers race: alarm or not?", "Each begins three jobs with a VAC area and ends three. Of their 924 orders 400 raise the alarm."],
    "race-order": ["The order in which the race is lost", "Six jobs are asked for before any of them ends."] }],
];

/** What an example is called, and what it shows; nothing where it isn't one of these. @param {string} name @returns {[string, string] | undefined} */
export const told = (name) => TOPICS.map(([, all]) => all[name]).find((it) => it !== undefined);
