#!/usr/bin/env python3
"""Respells the repository's own definitions and lemmas as today's Rattle spells names: words in snake case.

usage: tools/respell.py            at the top, once, after the toolchain's port.py
It rewrites the files of crates/ (.rt, .antt and .edit) and the pages of README.md and docs/, whole words alone. Functions of src/,
exported names and texts in quotes keep their names: none of the words below is one. (The parameter of CODE is one of exported functions too.)
"""
import os
import re

# Lemmas whose name a definition now has, and two words that port.py made.
FIRST = {
    "crates/text/proofs/InnerValues.antt": {"digit_at": "digit_at_lem"},
    "crates/settings/proofs/Cutoffs.antt": {"test_at": "test_at_lem"},
    "crates/text/proofs/InnerCommas.antt": {"word_end": "word_end_lem"},
    "crates/text/proofs/InnerForms.antt": {"word_end": "word_end_lem"},
    "crates/text/proofs/InnerSaid.antt": {"count_at": "count_at_lem"},
    "crates/laws/proofs/Lists.antt": {"length_from": "length_from_lem"},
}
ALL = {"get_d_any": "get_or_any"}

# A parameter whose name is a tactic's today. In comments, and in the programs of stored cases, it is a word of its own and stays.
CODE = {"ground": "elevation"}

NAMES = """
aboveIn absentNoData acceptedWith addedBy afterAdd afterBy afterJoin afterSign aimKept allLong allTo amountOf amountThen
answerBy anyMeasure badCorners bearingAt bearingDrop bearingFall bearingKey bearingOf bearingsBySteps beforeCounts beforeMarks
beforeNumbers besideAt besideOf bitsAt bodyAnswer bodyOutcome broughtBy broughtTo byLength cellLine cellLines cellWith cellsFrom
cellsTo cellsWith channelAt channelIn channelOf claimedOfCase claimedOfCorner claimedOfRooms codeHeight codeTest colSteps
columnAfter commaDecimal cornerTest corneredOf cornersAfter cornersAnswer cornersOutcome countAt countCells countFormAt
countWord countWords countedOf countsOf cutoffAt cutoffFor cutoffOf defaultSettings digitAt digitOf directionAt directionCells
directionWord directionWords directionsBy directionsFor directionsOf directionsWritten downAt drawnWrong dropOf dueOf earlyTests
exponentOf extendedOf extentIn extentOf factorAt factorCells factorIs factorOf factorWord factorWords factorsOf factorsTo fallAt
fallDownAt fallKept fallOf fallsOf farSteps farmAt farmBy farmTests faultOf fieldLine filledLevels filledOf finalAt finalLength
finiteAt firstBad firstBroken firstCell firstComma firstFault firstMap firstMark firstRing firstTests fitOn fitTest flatStepping
flatSteps floatsAnswer flowWords flowsAt formedOr formerDefault formulaIn formulaNumber formulaOf formulaPlace formulaTest
foundIn foundWith frameHeader frameTests fromRows fromSide fromX fromY gatheredAt getD-from getD-map-in getD-tab getD-tab-past
givenBy givenTests goesOn gotOf greatestFall greatestFrom greatestLength greatestMm greatestNumbers greatestOf greatestTo
gridAnswer gridOutcome gridOutcomeOf gridReading gridSheet gridWith gridsBefore gridsOf groundDirections groundJudged
groundTests groundValids hasCell hasFactor hasLower headNumbers headSheet headedOf headerAnswer headerOf headerOutcome
headerWords heightAccepted heightCells heightIn heightOf heightTest heightWord heightWords highestAt highestIn highestOf
highestTo inSteps isBetween isChannel isCut isFactor isFirst isFormed isFrom isLong isNamed isNoData isNumber isSteep isWet
jobSettings judgedBy judgedOf judgementFor judgementOf keptOf largestOf leavesAt leavesZeros leftBy lengthBy lengthFactor
lengthFrom lengthIn lengthNow lengthTest lengthThen lengthWords lengthedOf lengthsNext lengthsOf lengthsWith lentAfter
lentBefore lentOn lentTerrain lentWith letterNext levelIn levelOf levelsIn levelsOf linesOr loneHeader loneHeaderAnswer
longestOf lowerAt lowestOf mapFits mapLines mapOf mapSheet mapTests mappedAt mappingAfter markPlaces markTest markTests maxZ
measuredOf minusInfinite movedOf nearerAt nearerBearing nearestFloat nearestFloats nearestMagnitude nearestOf newerFactor
nextToNone nineKept noChannel noCounts noData noDataFactor noDataHeight noDataKept noFall noRule noSpan noTally notANumber
notAlone notLone numberCells numberedOf numbersAfter numbersFrom numbersOf numbersWith ofFarm offerAt olderFactor oneFarm
oneFormula oneWrong outcomeOf outflowOf pairWith pairedOf passesIn placeWords queuedFrom rankIn readingAfter receiverOf
refusalBefore refusalLine refusedAt refusedGrids refusedWith relaxedOf reportFrom reportOf reportingAfter reportingFor
reportingOf rimAt rimKept ringAt ringTest risesAt roomOf roomTest roundOf roundedFrom rowSteps rowWords rulesIn rulesOf
sameFloat secondPlaces settingsBy settingsOf settingsTest settingsTests settleOf severalWrong shapeLine sharedDrawn
sharedDrawnWrong sharedWrong sheetOf shownWords shutWaits sideAccepted sideAndNoData sideTest sidedOf sineOf sineReaches
sizeAccepted sizeTest someOf sourceTests standsIn startLength startWaits steepAt steepBearing steepOf steepestAt steepestIn
steepnessAt steepnessFactor steepnessOf stepOver stepsIn stopOf stripWith summaryWords surfaceOf surveyNumbers terrainJudged
terrainPlaces terrainTests testAt testFrom thresholdAccepted thresholdOf toldOf toldOfCase toldOfCorner toldOfRooms tooLong
totalsOf twoFarms twoFormulas unsoundWith validAt validIn validsOf valueWords verdictOf waitPlace walkTo wholeAndDecimals
withChannel withoutFormula withoutFormulaFor wordEnd wordStart writingAfter xFirst xLength yFirst yLength
""".split()


def respelled(name):
    def part(s):
        if s == "getD":
            return "get_or"
        return re.sub(r"[A-Z]", lambda m: "_" + m.group(0).lower(), s) if s[:1].islower() else s

    return "-".join(part(s) for s in name.split("-"))


def replace(text, words):
    pattern = r"(?<![\w'\-])(" + "|".join(sorted(map(re.escape, words), key=len, reverse=True)) + r")(?![\w'\-])"
    return re.sub(pattern, lambda m: words[m.group(1)], text)


def in_code(line):
    at = re.search(r"(^|\s)(--|//)|^#", line)
    end = at.start() if at else len(line)
    return replace(line[:end], CODE) + line[end:]


def files():
    for folder, dirs, names in os.walk("crates"):
        dirs[:] = [d for d in dirs if d != "out"]
        yield from (os.path.join(folder, f) for f in names if f.endswith((".rt", ".antt", ".edit")))
    for folder, dirs, names in os.walk("docs"):
        yield from (os.path.join(folder, f) for f in names if f.endswith(".md"))
    yield "README.md"


def main():
    words = ALL | {n: respelled(n) for n in NAMES}
    for path in sorted(files()):
        with open(path, encoding="utf-8") as f:
            old = f.read()
        new = old
        if path in FIRST:
            new = replace(new, FIRST[path])
        new = replace(new, words)
        if path.startswith("crates") and "_cases/" not in path:
            new = "\n".join(in_code(line) for line in new.split("\n"))
        if new != old:
            with open(path, "w", encoding="utf-8") as f:
                f.write(new)


main()
