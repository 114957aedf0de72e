# Steps between two values, größe by größe.
class Steps
  constructor: (@first, @last, @size = 1) ->

  each: (visit) ->
    visit value for value in [@first..@last] by @size
    this

  toString: ->
    texts = []
    @each (value) => texts.push "#{value} 😀"
    texts.join ' → '

größe = (steps) -> Math.abs steps.last - steps.first

steps = new Steps 1, 9, 2
console.log "#{steps}", größe(steps) if steps?
