% Settings for pages of scores that `rhythm lily` writes: clefs by pitch, tuplets, and one signature in all staves where a bar begins with
% a grace note. For LilyPond 2.24:
%   lilypond -dinclude-settings=page.ily score.ly
#(define (rhythm-pitches music)
   (let ((found '()))
     (for-some-music
      (lambda (m)
        (if (music-is-of-type? m 'note-event)
            (set! found (cons (ly:pitch-semitones (ly:music-property m 'pitch)) found)))
        #f)
      music)
     found))

#(define (rhythm-mean numbers)
   (/ (apply + numbers) (max 1 (length numbers))))

#(define (rhythm-clef music)
   (let* ((pitches (rhythm-pitches music))
          (mean (if (null? pitches) 12 (rhythm-mean pitches))))
     (cond ((< mean -17) "bass_8")
           ((< mean 0) "bass")
           ((> mean 24) "treble^8")
           (else "treble"))))

#(define (rhythm-scale music)
   (let ((duration (ly:music-property music 'duration #f)))
     (if (ly:duration? duration) (ly:duration-scale duration) #f)))

% the scale of an element of a bar: that of its note, chord or rest
#(define (rhythm-element-scale m)
   (cond ((rhythm-scale m) => identity)
         ((music-is-of-type? m 'event-chord)
          (let ((notes (filter rhythm-scale (ly:music-property m 'elements))))
            (if (null? notes) #f (rhythm-scale (car notes)))))
         (else #f)))

#(define (rhythm-moment m) (ly:moment-main (ly:music-length m)))

% runs of one scale, each cut where its length is a whole number of the unit: a quarter
#(define (rhythm-tuplets elements)
   (let loop ((rest elements) (done '()))
     (if (null? rest)
         (reverse done)
         (let ((scale (rhythm-element-scale (car rest))))
           (if (or (not scale) (= scale 1) (not (< scale 1)))
               (loop (cdr rest) (cons (car rest) done))
               (let run ((more rest) (taken '()) (sum 0))
                 (if (and (pair? more)
                          (or (equal? (rhythm-element-scale (car more)) scale)
                              (and (pair? taken) (not (rhythm-element-scale (car more)))))
                          (or (null? taken) (not (integer? (* sum 4)))))
                     (run (cdr more) (cons (car more) taken) (+ sum (rhythm-moment (car more))))
                     (let ((inner (reverse taken)))
                       (loop more
                         (cons (make-music 'TimeScaledMusic
                                 'denominator (denominator scale)
                                 'numerator (numerator scale)
                                 'duration '()
                                 'element (make-sequential-music inner))
                               done))))))))))

% ---- grace notes at the beginnings of bars

#(define (rhythm-named? m name) (eq? (ly:music-property m 'name) name))

% how long the grace notes are before the first note of each bar, bar after bar: 0 where there are none
#(define (rhythm-graces elements)
   (let loop ((rest elements) (at-start #t) (lengths '()))
     (cond ((null? rest) (reverse lengths))
           ((rhythm-named? (car rest) 'BarCheck) (loop (cdr rest) #t lengths))
           ((not at-start) (loop (cdr rest) #f lengths))
           ((rhythm-named? (car rest) 'GraceMusic)
            (loop (cdr rest) #f (cons (rhythm-moment (ly:music-property (car rest) 'element)) lengths)))
           ((> (rhythm-moment (car rest)) 0) (loop (cdr rest) #f (cons 0 lengths)))
           (else (loop (cdr rest) #t lengths)))))

#(define (rhythm-skip length)
   (make-music 'SkipEvent 'duration (ly:make-duration 0 0 length)))

#(define (rhythm-silent-grace length)
   (make-music 'GraceMusic 'element (rhythm-skip length)))

#(define (rhythm-longer-grace grace length)
   (make-music 'GraceMusic 'element
     (make-sequential-music (list (rhythm-skip length) (ly:music-property grace 'element)))))

% the same elements, where each bar begins with grace notes of this length: silent ones before those that are there
#(define (rhythm-with-graces elements lengths)
   (let loop ((rest elements) (at-start #t) (lengths lengths) (done '()))
     (cond ((null? rest) (reverse done))
           ((rhythm-named? (car rest) 'BarCheck) (loop (cdr rest) #t lengths (cons (car rest) done)))
           ((or (not at-start) (null? lengths)) (loop (cdr rest) #f lengths (cons (car rest) done)))
           ((rhythm-named? (car rest) 'GraceMusic)
            (let ((more (- (car lengths) (rhythm-moment (ly:music-property (car rest) 'element)))))
              (loop (cdr rest) #f (cdr lengths)
                (cons (if (> more 0) (rhythm-longer-grace (car rest) more) (car rest)) done))))
           ((> (rhythm-moment (car rest)) 0)
            (loop (cdr rest) #f (cdr lengths)
              (if (> (car lengths) 0)
                  (cons (car rest) (cons (rhythm-silent-grace (car lengths)) done))
                  (cons (car rest) done))))
           (else (loop (cdr rest) #t lengths (cons (car rest) done))))))

% ---- staves

#(define (rhythm-staff? m)
   (and (rhythm-named? m 'ContextSpeccedMusic)
        (eq? (ly:music-property m 'context-type) 'Staff)
        (rhythm-named? (ly:music-property m 'element) 'SequentialMusic)))

#(define (rhythm-elements staff)
   (ly:music-property (ly:music-property staff 'element) 'elements))

#(define (rhythm-staves music)
   (let ((found '()))
     (music-map (lambda (m) (if (rhythm-staff? m) (set! found (cons m found))) m) music)
     (reverse found)))

% the longest grace notes of each bar in any staff
#(define (rhythm-longest staves)
   (if (null? staves)
       '()
       (apply map max (map (lambda (staff) (rhythm-graces (rhythm-elements staff))) staves))))

#(define (rhythm-page! music)
   (let* ((staves (rhythm-staves music))
          (lengths (rhythm-longest staves)))
     (for-each
      (lambda (staff)
        (let ((clef (rhythm-clef (ly:music-property staff 'element))))
          (ly:music-set-property! (ly:music-property staff 'element) 'elements
            (cons (make-clef-set clef)
                  (rhythm-tuplets (rhythm-with-graces (rhythm-elements staff) lengths))))))
      staves)
     music))

#(set! toplevel-music-functions
   (cons (lambda (music . more) (rhythm-page! music)) toplevel-music-functions))

% Staves that rest for a whole line are left out there, but for the first line.
\layout {
  \context { \Staff \RemoveEmptyStaves }
}
