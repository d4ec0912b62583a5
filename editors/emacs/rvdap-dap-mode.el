;;; rvdap-dap-mode.el --- Debug RISC-V assembly with rvdap in Emacs, by dap-mode  -*- lexical-binding: t -*-

;; For Emacs before 29.1, which has no dape. dap-mode comes from MELPA, or on Debian as elpa-dap-mode.
;;
;; Copy this file to ~/.emacs.d/ and put this line into ~/.emacs.d/init.el:
;;
;;   (load (locate-user-emacs-file "rvdap-dap-mode"))
;;
;; Then visit a program (FILE.s), and type M-x dap-debug RET and one of these:
;;
;;   rvdap RET             standard streams: dap-mode starts rvdap
;;   rvdap-attach RET      TCP: joins the program of an rvdap that runs, as
;;                         rvdap --listen 127.0.0.1:4711 --program FILE.s, with the absolute path of FILE.s
;;
;; The first runs `rvdap check FILE.s' before. If the program has an error, *compilation* shows it with its line, C-x ` goes there, and
;; nothing is launched.

(require 'compile)
(require 'dap-mode)
(require 'dap-ui)

(defun rvdap-check (program)
  "Check PROGRAM. If it has an error, show it in *compilation*, which knows its form, and launch nothing."
  (unless (eq 0 (call-process "rvdap" nil nil nil "check" program))
    (compile (concat "rvdap check " (shell-quote-argument program)))
    (user-error "Not launched: *compilation* shows why")))

(dap-register-debug-provider
 "rvdap"
 (lambda (conf)
   (if (plist-get conf :debugServer)
       (dap--put-if-absent conf :host "127.0.0.1")
     (rvdap-check (plist-get conf :program))
     (dap--put-if-absent conf :dap-server-path '("rvdap")))))

(dap-register-debug-template
 "rvdap"
 (list :type "rvdap" :request "launch" :name "rvdap" :program "${file}" :stopOnEntry t))

(dap-register-debug-template
 "rvdap-attach"
 (list :type "rvdap" :request "attach" :name "rvdap-attach" :debugServer 4711))

;; dap-mode has no commands that go back. A request that is refused leaves the program where it is, as dap-mode shows it then too.
(defun rvdap-go-back (command session)
  "Ask the program of SESSION to go back, by the request COMMAND."
  (dap--send-message (dap--make-request command (list :threadId 1))
                     (dap--resp-handler (lambda (_) (dap--resume-application session)))
                     session))

(defun rvdap-step-back (session)
  "Take back one instruction of the program that SESSION debugs."
  (interactive (list (dap--cur-session-or-die)))
  (rvdap-go-back "stepBack" session))

(defun rvdap-reverse-continue (session)
  "Run the program that SESSION debugs back, to a breakpoint or as far as it is recorded."
  (interactive (list (dap--cur-session-or-die)))
  (rvdap-go-back "reverseContinue" session))

;; What a logpoint says is of the category console, which dap-mode does not show by itself.
(add-to-list 'dap-output-buffer-filter "console" t)

(dap-mode 1)
