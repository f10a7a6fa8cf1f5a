// Draws the cost of adding a line against the rows in use, local and remote, from the least times of one run
// (first argument) as an SVG (second argument). The unit of cost is the floor in the same run, or-ing the whole
// table, so that the picture holds ratios as the tables do.
'use strict'
const fs = require('fs')

const SYSTEMS = [
  { name: 'ours', title: 'this library', colour: '#0b3d91', dash: '', mark: 'circle' },
  { name: 'second', title: 'the second program', colour: '#b35900', dash: '2 3', mark: 'square' },
  { name: 'crdts', title: 'crdts List', colour: '#1b7837', dash: '8 4', mark: 'triangle' },
  { name: 'yjs', title: 'Yjs Y.Array', colour: '#a50f6b', dash: '10 3 2 3', mark: 'diamond' }
]
const FLOOR_LINE = ['#000', 'stroke-dasharray="1 3"']
const WIDTH = 940
const HEIGHT = 470
const PANEL = { top: 60, width: 380, height: 300, lefts: [80, 530] }
const LEGEND = [60, 210, 410, 565]
const ROWS = 512
const LOWEST = 0.2
const HIGHEST = 100

function readTimes (name) {
  return fs.readFileSync(name, 'utf8').trimEnd().split('\n').map(line => {
    const [system, kind, rows, time] = line.split(' ')
    return { system, kind, rows: Number(rows), time: Number(time) }
  })
}

function height (cost) {
  const part = Math.log(cost / LOWEST) / Math.log(HIGHEST / LOWEST)
  return PANEL.top + PANEL.height * (1 - part)
}

const across = (left, rows) => left + PANEL.width * rows / ROWS

const text = (x, y, words, more = '') => `<text x="${x}" y="${y}" ${more}>${words}</text>`

const line = (x1, y1, x2, y2, colour, more = '') =>
  `<line x1="${x1}" y1="${y1}" x2="${x2}" y2="${y2}" stroke="${colour}" ${more}/>`

function mark (shape, x, y, colour) {
  const corners = {
    square: [[-3.5, -3.5], [3.5, -3.5], [3.5, 3.5], [-3.5, 3.5]],
    triangle: [[0, -4.5], [4.5, 3.5], [-4.5, 3.5]],
    diamond: [[0, -5], [5, 0], [0, 5], [-5, 0]]
  }[shape]
  if (corners === undefined) return `<circle cx="${x.toFixed(1)}" cy="${y.toFixed(1)}" r="4" fill="${colour}"/>`
  const points = corners.map(([dx, dy]) => `${(x + dx).toFixed(1)},${(y + dy).toFixed(1)}`).join(' ')
  return `<polygon points="${points}" fill="${colour}"/>`
}

function curve (system, points) {
  const path = points.map(([x, y]) => `${x.toFixed(1)},${y.toFixed(1)}`).join(' ')
  const style = `fill="none" stroke="${system.colour}" stroke-width="2" stroke-dasharray="${system.dash}"`
  const marks = points.map(([x, y]) => mark(system.mark, x, y, system.colour))
  return [`<polyline points="${path}" ${style}/>`, ...marks]
}

function axes (left, title) {
  const bottom = PANEL.top + PANEL.height
  const right = left + PANEL.width
  const parts = [text(left + PANEL.width / 2, PANEL.top - 14, title, 'text-anchor="middle" font-weight="bold"')]
  for (const cost of [0.2, 0.5, 1, 2, 5, 10, 20, 50, 100]) {
    const y = height(cost).toFixed(1)
    const [colour, dash] = cost === 1 ? FLOOR_LINE : ['#ddd', '']
    parts.push(line(left, y, right, y, colour, dash))
    parts.push(text(left - 8, Number(y) + 4, cost, 'text-anchor="end"'))
  }
  for (let rows = 0; rows <= ROWS; rows += 64) {
    const x = across(left, rows)
    parts.push(line(x, bottom, x, bottom + 5, '#000'), text(x, bottom + 20, rows, 'text-anchor="middle"'))
  }
  parts.push(line(left, bottom, right, bottom, '#000'), line(left, PANEL.top, left, bottom, '#000'))
  parts.push(text(left + PANEL.width / 2, bottom + 42, 'rows in use', 'text-anchor="middle"'))
  return parts
}

function panel (times, left, title, kind) {
  const floor = times.find(one => one.system === 'floor-cc').time
  const point = one => [across(left, one.rows), height(one.time / floor)]
  const curves = SYSTEMS.map(system =>
    curve(system, times.filter(one => one.system === system.name && one.kind === kind).map(point)))
  return [...axes(left, title), ...curves.flat()]
}

function legend () {
  const y = HEIGHT - 24
  const entries = SYSTEMS.map((system, i) => {
    const x = LEGEND[i]
    return [...curve(system, [[x, y], [x + 20, y], [x + 40, y]]), text(x + 48, y + 4, system.title)]
  })
  const floor = [line(725, y, 765, y, ...FLOOR_LINE), text(773, y + 4, 'or-ing the table')]
  return [...entries.flat(), ...floor]
}

function draw (times) {
  const label = 'cost of a call (or-ing the table = 1, log scale)'
  return [
    `<svg xmlns="http://www.w3.org/2000/svg" viewBox="0 0 ${WIDTH} ${HEIGHT}"`,
    'font-family="sans-serif" font-size="12">',
    `<rect width="${WIDTH}" height="${HEIGHT}" fill="#fff"/>`,
    text(0, 0, label, 'text-anchor="middle" transform="translate(26 210) rotate(-90)"'),
    ...panel(times, PANEL.lefts[0], 'Local: adding a line and making its patch', 'fill-local'),
    ...panel(times, PANEL.lefts[1], 'Remote: receiving that patch', 'fill-remote'),
    ...legend(),
    '</svg>'
  ].join('\n') + '\n'
}

fs.writeFileSync(process.argv[3], draw(readTimes(process.argv[2])))
