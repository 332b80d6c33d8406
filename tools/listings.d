
# P : block { emit e1 } if e1 { } { }
/module/functions/0/body/1
body, where #2 is the place body/1:
  #0 Block
  #1     Emit [3]
> #2 If { condition: [3] }
Why: #1 emits [3], in the Block #0, which has ended before #2.
Cure: emit [3] before #2, in the same list or in one around it.
Or: store it in a local after #1, and use a Load of that.

# P : loop { if t { continue } { } emit e1 } { } break_if e1
/module/functions/0/body/0/Loop/break_if
body, where the break condition of #0 is the place body/0/Loop/break_if:
> #0 Loop { break_if: Some([3]) }
       body:
  #1     If { condition: [0] }
           accept:
  #2         Continue
  #3     Emit [3]
Why: #3 emits [3] in the body of the Loop #0, and the Continue #2 may skip it.
Cure: emit [3] in that body before the first statement that holds a Continue, or in the continuing part before the break condition of #0.

# P : loop { if t { continue } { } emit e1 } { loop { if e1 { } { } } { } }
/module/functions/0/body/0/Loop/continuing/0/Loop/body/0
body, where #5 is the place body/0/Loop/continuing/0/Loop/body/0:
  #0 Loop { break_if: None }
       body:
  #1     If { condition: [0] }
           accept:
  #2         Continue
  #3     Emit [3]
       continuing:
  #4     Loop { break_if: None }
           body:
> #5         If { condition: [3] }
Why: #3 emits [3] in the body of the Loop #0, and the Continue #2 may skip it.
Cure: emit [3] in that body before the first statement that holds a Continue, or in the continuing part before #5.

# P : loop { block { emit e1 } if t { continue } { } } { } break_if e1
/module/functions/0/body/0/Loop/break_if
body, where the break condition of #0 is the place body/0/Loop/break_if:
> #0 Loop { break_if: Some([3]) }
       body:
  #1     Block
  #2         Emit [3]
  #3     If { condition: [0] }
           accept:
  #4         Continue
Why: #2 emits [3], in the Block #1, which has ended before the break condition of #0.
Cure: emit [3] before the break condition of #0, in the same list or in one around it.
Or: store it in a local after #2, and use a Load of that.

# P : loop { if t { emit e1 } { } } { } if e1 { } { }
/module/functions/0/body/1
body, where #3 is the place body/1:
  #0 Loop { break_if: None }
       body:
  #1     If { condition: [0] }
           accept:
  #2         Emit [3]
> #3 If { condition: [3] }
Why: #2 emits [3], in the accept list of the If #1, which has ended before #3.
Cure: emit [3] before #3, in the same list or in one around it.
Or: store it in a local after #2, and use a Load of that.

# P : if e1 { } { } emit e1
/module/functions/0/body/0
body, where #0 is the place body/0:
> #0 If { condition: [3] }
  #1 Emit [3]
Why: #1 emits [3], and comes after #0.
Cure: emit [3] before #0, in the same list or in one around it.

# P : if e1 { } { }
/module/functions/0/body/0
body, where #0 is the place body/0:
> #0 If { condition: [3] }
Why: no statement of the body emits [3].
Cure: emit [3] before #0, in the same list or in one around it.

# D : emit e2
/module/functions/0/body/0
body, where #0 is the place body/0:
> #0 Emit [6]
Why: no statement of the body emits [5].
Cure: emit [5] before #0, in the same list or in one around it.

# P : emit e1 block { emit e1 }
/module/functions/0/body/1/Block/0
body, where #2 is the place body/1/Block/0:
  #0 Emit [3]
  #1 Block
> #2     Emit [3]
Why: #0 emits it first, and its list has not ended.
Cure: leave out one of the two.

# P : loop { if t { continue } { } emit e1 } { emit e1 }
/module/functions/0/body/0/Loop/continuing/0
body, where #4 is the place body/0/Loop/continuing/0:
  #0 Loop { break_if: None }
       body:
  #1     If { condition: [0] }
           accept:
  #2         Continue
  #3     Emit [3]
       continuing:
> #4     Emit [3]
Why: #3 emits it first, and its list has not ended.
Cure: leave out one of the two.

# P : emit t
/module/functions/0/body/0
body, where #0 is the place body/0:
> #0 Emit [0]
Why: it is in scope from the start of the body, and is never emitted.
Cure: leave it out.

# C : call f -> r1 call f -> r1
/module/functions/1/body/1
body, where #1 is the place body/1:
  #0 Call { function: [0], arguments: [], result: Some([6]) }
> #1 Call { function: [0], arguments: [], result: Some([6]) }
Why: #0 emits it first, and its list has not ended.
Cure: leave out one of the two.

# C : if t { call f -> r1 } { call f -> r1 }
/module/functions/1/body/0/If/reject/0
body, where #2 is the place body/0/If/reject/0:
  #0 If { condition: [0] }
       accept:
  #1     Call { function: [0], arguments: [], result: Some([6]) }
       reject:
> #2     Call { function: [0], arguments: [], result: Some([6]) }
Why: #1 has this result already.
Cure: give each of the two a result of its own.

# C : 
/module/functions/1/expressions/6
function 1:
  local [0]: type [1], Scalar(Scalar { kind: Uint, width: 4 })
expressions:
> [6] CallResult([0])

# P : switch u { 1 { } 2 { } 1 { } default { } }
/module/functions/0/body/0
body, where #0 is the place body/0:
> #0 Switch { selector: [1] } of 4 cases
Why: case 2 has the value of case 0.

# P : switch u { 1 fall { emit e1 } default { if e1 { } { } } }
/module/functions/0/body/0/Switch/cases/1/body/0
body, where #2 is the place body/0/Switch/cases/1/body/0:
  #0 Switch { selector: [1] } of 2 cases
       case 0, U32(1), which falls through:
  #1     Emit [3]
       case 1, Default:
> #2     If { condition: [3] }
Why: #1 emits [3], in case 0 of the Switch #0, which has ended before #2.
Cure: emit [3] before #2, in the same list or in one around it.
Or: store it in a local after #1, and use a Load of that.

# P : loop { } { return }
/module/functions/0/body/0/Loop/continuing/0
body, where #1 is the place body/0/Loop/continuing/0:
  #0 Loop { break_if: None }
       continuing:
> #1     Return { value: None }

# P : store v i
/module/functions/0/body/0
body, where #0 is the place body/0:
> #0 Store { pointer: [4], value: [2] }

# P : block { emit x1 store v x1 } store v x1
/module/functions/0/body/1
body, where #3 is the place body/1:
  #0 Block
  #1     Emit [5]
  #2     Store { pointer: [4], value: [5] }
> #3 Store { pointer: [4], value: [5] }
Why: #1 emits [5], in the Block #0, which has ended before #3.
Cure: emit [5] before #3, in the same list or in one around it.
Or: use a Load of local [0], in which #2 stores it.

# D : loop { emit x1 emit e2 if t { store v e2 } { break } } { } store v e2
/module/functions/0/body/1
body, where #6 is the place body/1:
  #0 Loop { break_if: None }
       body:
  #1     Emit [5]
  #2     Emit [6]
  #3     If { condition: [0] }
           accept:
  #4         Store { pointer: [4], value: [6] }
           reject:
  #5         Break
> #6 Store { pointer: [4], value: [6] }
Why: #2 emits [6], in the body of the Loop #0, which has ended before #6.
Cure: use a Load of local [0], in which #4 stores it.
Or: emit [6] before #6, in the same list or in one around it.

# D : loop { if t { emit x1 .. e2 } { store v u } break } { } store v e2
/module/functions/0/body/1
body, where #5 is the place body/1:
  #0 Loop { break_if: None }
       body:
  #1     If { condition: [0] }
           accept:
  #2         Emit [5] to [6]
           reject:
  #3         Store { pointer: [4], value: [1] }
  #4     Break
> #5 Store { pointer: [4], value: [6] }
Why: #2 emits [6], in the accept list of the If #1, which has ended before #5.
Cure: store it in a local after #2, and use a Load of that.
Or: emit [6] before #5, in the same list or in one around it.

# D : emit x1 loop { emit e2 break } { } store v e2
/module/functions/0/body/2
body, where #4 is the place body/2:
  #0 Emit [5]
  #1 Loop { break_if: None }
       body:
  #2     Emit [6]
  #3     Break
> #4 Store { pointer: [4], value: [6] }
Why: #2 emits [6], in the body of the Loop #1, which has ended before #4.
Cure: emit [6] before #4, in the same list or in one around it.
Or: store it in a local after #2, and use a Load of that.

# P : loop { emit x1 break } { } store v x1
/module/functions/0/body/1
body, where #3 is the place body/1:
  #0 Loop { break_if: None }
       body:
  #1     Emit [5]
  #2     Break
> #3 Store { pointer: [4], value: [5] }
Why: #1 emits [5], in the body of the Loop #0, which has ended before #3.
Cure: store it in a local after #1, and use a Load of that.
Or: emit [5] before #3, in the same list or in one around it.

# D : loop { block { emit x1 emit e2 } store v e2 break } { }
/module/functions/0/body/0/Loop/body/1
body, where #4 is the place body/0/Loop/body/1:
  #0 Loop { break_if: None }
       body:
  #1     Block
  #2         Emit [5]
  #3         Emit [6]
> #4     Store { pointer: [4], value: [6] }
  #5     Break
Why: #3 emits [6], in the Block #1, which has ended before #4.
Cure: emit [6] before #4, in the same list or in one around it.
Or: store it in a local after #3, and use a Load of that.

# C : loop { call f -> r1 break } { } store v r1
/module/functions/1/body/1
body, where #3 is the place body/1:
  #0 Loop { break_if: None }
       body:
  #1     Call { function: [0], arguments: [], result: Some([6]) }
  #2     Break
> #3 Store { pointer: [4], value: [6] }
Why: #1 emits [6], in the body of the Loop #0, which has ended before #3.
Cure: store it in a local after #1, and use a Load of that.
Or: emit [6] before #3, in the same list or in one around it.
