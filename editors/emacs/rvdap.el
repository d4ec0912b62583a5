;;; rvdap.el --- Debug RISC-V assembly with rvdap in Emacs, by dape  -*- lexical-binding: t -*-

;; For Emacs 29.1 or later. rvdap-dap-mode.el, beside this file, is for an earlier one.
;;
;; Copy this file to ~/.emacs.d/ and put this line into ~/.emacs.d/init.el:
;;
;;   (load (locate-user-emacs-file "rvdap"))
;;
;; Then visit a program (FILE.s), and type M-x dape RET and one of these:
;;
;;   rvdap RET             standard streams: dape starts rvdap
;;   rvdap-tcp RET         TCP: dape starts rvdap on a port that is free, and connects
;;   rvdap-attach RET      TCP: joins the program of an rvdap that runs, as
;;                         rvdap --listen 127.0.0.1:4711 --program FILE.s, with the absolute path of FILE.s
;;
;; The first two run `rvdap check FILE.s' before. If the program has an error, *compilation* shows it with its line, C-x ` goes there, and
;; nothing is launched.

(require 'compile)
(require 'dape)

(defun rvdap-check-command ()
  "The command that checks the program in this buffer. Compilation mode knows the form in which it prints an error."
  (concat "rvdap check " (shell-quote-argument (buffer-file-name))))

(defun rvdap-close-check (buffer)
  "Close the window of BUFFER, where a program was checked, and has no error."
  (when (string-prefix-p "rvdap check " (car (buffer-local-value 'compilation-arguments buffer)))
    (quit-windows-on buffer t)))
(add-hook 'dape-compile-hook #'rvdap-close-check)

;; The program is named by its absolute path: dape names the sources of breakpoints so, and rvdap compares the two.
(add-to-list 'dape-configs
             '(rvdap
               modes (asm-mode)
               ensure dape-ensure-command
               compile rvdap-check-command
               command "rvdap"
               command-cwd dape-command-cwd
               :type "rvdap"
               :request "launch"
               :program buffer-file-name
               :stopOnEntry t))

;; By --once rvdap ends with the connection.
(add-to-list 'dape-configs
             '(rvdap-tcp
               modes (asm-mode)
               ensure dape-ensure-command
               compile rvdap-check-command
               command "rvdap"
               command-args ("--listen" "127.0.0.1::autoport" "--once")
               command-cwd dape-command-cwd
               host "127.0.0.1"
               port :autoport
               :type "rvdap"
               :request "launch"
               :program buffer-file-name
               :stopOnEntry t)
             t)

;; C-x C-a D leaves the program as it is; C-x C-a q ends it.
(add-to-list 'dape-configs
             '(rvdap-attach
               modes (asm-mode)
               host "127.0.0.1"
               port 4711
               :type "rvdap"
               :request "attach")
             t)

(defun rvdap-breakpoint-hits (number)
  "Set a breakpoint on this line that stops from its hit NUMBER on.
`dape-breakpoint-hits' asks for an operator too, which rvdap does not take."
  (interactive "nStop from the hit number: ")
  (dape-breakpoint-hits (number-to-string number)))

;; dape has no commands that go back.
(defun rvdap-step-back (conn)
  "Take back one instruction of the program that CONN debugs."
  (interactive (list (dape--live-connection 'stopped)))
  (dape--next-like-command conn "stepBack"))

(defun rvdap-reverse-continue (conn)
  "Run the program that CONN debugs back, to a breakpoint or as far as it is recorded."
  (interactive (list (dape--live-connection 'stopped)))
  (dape--next-like-command conn "reverseContinue"))

;; C-x C-a N and C-x C-a C: the capitals of the keys that go on. The last letter may be repeated, as theirs may, where repeat-mode is on.
(define-key dape-global-map "N" #'rvdap-step-back)
(define-key dape-global-map "C" #'rvdap-reverse-continue)
(put 'rvdap-step-back 'repeat-map 'dape-global-map)
(put 'rvdap-reverse-continue 'repeat-map 'dape-global-map)

;; `back' and `reverse' in the window *dape-repl*, beside its `next' and `continue'.
(add-to-list 'dape-repl-commands '("back" . rvdap-step-back))
(add-to-list 'dape-repl-commands '("reverse" . rvdap-reverse-continue))

;; dape 0.24.1 calls its own `dape-kill' with one argument too few where `terminate' is refused, as after the end of a program: it shows an
;; error, and the session stays open.
(define-advice dape-kill (:around (kill conn &rest more) rvdap-after-the-end)
  (if (functionp conn)
      (funcall kill (dape--live-connection 'parent t) conn 'with-disconnect)
    (apply kill conn more)))

;; Addresses of frames and disassembly are shown beside the source.
(setq dape-buffer-window-arrangement 'right)
